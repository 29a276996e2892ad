"use strict";
// A click on what is cut opens its drawing; browsers that open it by themselves are not disturbed.
document.addEventListener("click", (event) => {
  const link = event.target.closest("a[href^='#']");
  const aim = link && document.getElementById(link.getAttribute("href").slice(1));
  if (aim) {
    aim.open = true;
  }
});
const all = [...document.querySelectorAll("details")];
if (all.length > 2) {
  const button = document.createElement("button");
  button.type = "button";
  button.textContent = "Open all";
  button.addEventListener("click", () => {
    const opens = all.some((part) => !part.open);
    all.forEach((part) => { part.open = opens; });
    button.textContent = opens ? "Fold all" : "Open all";
  });
  document.querySelector("header").prepend(button);
}
