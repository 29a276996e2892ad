"""From RTL to that language, by yosys."""
