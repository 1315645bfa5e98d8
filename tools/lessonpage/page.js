// Shows and hides. Every list and every number stands in the page already; chance alone decides which list is drawn.
"use strict";
document.documentElement.classList.add("script");

document.querySelectorAll(".lists").forEach(function (lists) {
  const boxes = Array.from(lists.querySelectorAll("input"));
  const panels = Array.from(lists.querySelectorAll(".panel"));
  const cover = lists.querySelector(".cover"), draw = lists.querySelector(".draw"), turn = lists.querySelector(".turn");
  const hand = lists.querySelector(".hand"), status = lists.querySelector(".status");
  let drawn = null;

  function putDown() {
    drawn = null;
    hand.textContent = "";
    turn.disabled = true;
  }

  // The panel of the offers that are ticked.
  function show() {
    const ticked = boxes.filter((box) => box.checked).map((box) => box.value).join("-");
    panels.forEach((panel) => { panel.hidden = panel.dataset.idle !== ticked; });
    putDown();
  }

  function open() {
    return panels.find((panel) => !panel.hidden);
  }

  function tellCount() {
    status.textContent = open().querySelector("p").textContent;
  }

  function setCover(covered) {
    lists.classList.toggle("covered", covered);
    cover.textContent = covered ? "Uncover the lists" : "Cover the lists";
  }

  // The names alone: neither the run nor the mark, nor who is called idle.
  function take() {
    const cards = open().querySelectorAll(".card");
    drawn = cards[Math.floor(Math.random() * cards.length)];
    hand.textContent = "Your list: " + drawn.querySelector(".names").textContent + ". Which kind is it?";
    turn.disabled = false;
  }

  function turnOver() {
    const idle = drawn.querySelector(".mark"), mark = idle ? idle.textContent : "no idle offer is on it";
    const kind = drawn.classList.contains("marked") ? "Marked" : "Not marked";
    const told = drawn.classList.contains("short") ? "With so few names it could not be marked." : "The list itself did not tell.";
    hand.textContent = "Your list: " + drawn.querySelector(".names").textContent + ". " + kind + ": " + mark
      + " (" + drawn.querySelector(".way").textContent + "). " + open().querySelector(".who").textContent + ". " + told;
  }

  boxes.forEach((box) => box.addEventListener("change", () => { show(); tellCount(); }));
  cover.addEventListener("click", () => { setCover(!lists.classList.contains("covered")); putDown(); });
  draw.addEventListener("click", () => { setCover(true); take(); });
  turn.addEventListener("click", turnOver);
  show();
});
