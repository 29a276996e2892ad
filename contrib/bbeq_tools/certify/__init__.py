"""What is made of a report: filled netlists, waves, proofs in other formats."""
