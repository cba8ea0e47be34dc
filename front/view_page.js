(function () {
  "use strict";
  var root = document.documentElement, about = document.getElementById("about"), drawing = document.getElementById("drawing");
  root.classList.add("script");

  function each(list, act) { Array.prototype.forEach.call(list, act); }
  function pinsOf(svg) { return svg.querySelectorAll(".pin"); }
  function clear() {
    each(drawing.querySelectorAll(".here, .other"), function (pin) { pin.classList.remove("here", "other"); });
    each(drawing.querySelectorAll(".reach"), function (group) { group.textContent = ""; });
  }
  function line(svg, from, to) {
    var path = document.createElementNS("http://www.w3.org/2000/svg", "path");
    path.setAttribute("d", "M" + from.dataset.x + " " + from.dataset.y + "L" + to.dataset.x + " " + to.dataset.y);
    svg.querySelector(".reach").appendChild(path);
  }
  var last = null;
  function show(pin) {
    if (last !== pin) { last = null; }
    var svg = pin.ownerSVGElement, others = pin.dataset.others ? pin.dataset.others.split(" ") : [];
    clear();
    pin.classList.add("here");
    each(pinsOf(svg), function (other) {
      if (others.indexOf(other.dataset.pin) < 0) { return; }
      other.classList.add("other");
      line(svg, pin, other);
    });
    about.textContent = pin.dataset.about;
  }
  function shown(event, act) {
    var pin = event.target.closest ? event.target.closest(".pin, .drawing a") : null;
    if (pin) { act(pin.matches(".pin") ? pin : pin.querySelector(".pin")); }
  }
  drawing.addEventListener("pointerover", function (event) { shown(event, show); });
  drawing.addEventListener("focusin", function (event) { shown(event, show); });
  // A finger shows the pin; the link to its row is followed by a second touch. Links alone listen to it: of all that is within
  // an element that does, a screen reader says that it is clickable.
  each(drawing.querySelectorAll("a"), function (link) {
    link.addEventListener("click", function (event) {
      var pin = link.querySelector(".pin");
      if (matchMedia("(hover: none)").matches && last !== pin) { event.preventDefault(); }
      last = pin;
    });
  });

  // the tab key enters the package once, and the arrow keys walk from pin to pin
  each(drawing.querySelectorAll("svg"), function (svg) {
    var stops = Array.prototype.map.call(pinsOf(svg), function (pin) { return pin.closest("a") || pin; });
    each(stops, function (stop, at) {
      stop.setAttribute("tabindex", at === 0 ? "0" : "-1");
      if (stop.matches(".pin")) { stop.setAttribute("role", "img"); stop.setAttribute("aria-label", stop.dataset.about); }
      stop.addEventListener("keydown", function (event) {
        var step = { ArrowRight: 1, ArrowDown: 1, ArrowLeft: -1, ArrowUp: -1 }[event.key];
        if (event.key === "Escape") { clear(); about.textContent = ""; }
        if (!step) { return; }
        event.preventDefault();
        var next = stops[(at + step + stops.length) % stops.length];
        stop.setAttribute("tabindex", "-1");
        next.setAttribute("tabindex", "0");
        next.focus();
      });
    });
  });

  var button = document.getElementById("copy"), text = document.getElementById("text"), copied = document.getElementById("copied");
  function select() {
    var range = document.createRange();
    range.selectNodeContents(text);
    getSelection().removeAllRanges();
    getSelection().addRange(range);
  }
  function say(done) { copied.textContent = done ? "Copied." : "Selected: copy it with your keyboard."; }
  if (button) {
    button.addEventListener("click", function () {
      var byHand = function () { select(); say(document.execCommand("copy")); };
      if (!navigator.clipboard) { byHand(); return; }
      navigator.clipboard.writeText(text.textContent).then(function () { say(true); }, byHand);
    });
  }
}());
