// What of a page's text leaves its box, lies on other text, or is too small to read; and what is wider than the window.
(function () {
  "use strict";
  const faults = [], slack = 1.5, smallest = 6.4;
  const all = (root, what) => [...root.querySelectorAll(what)];
  const inside = (a, b) => a.left >= b.left - slack && a.right <= b.right + slack && a.top >= b.top - slack && a.bottom <= b.bottom + slack;
  const meet = (a, b) => Math.min(a.right, b.right) - Math.max(a.left, b.left) > slack && Math.min(a.bottom, b.bottom) - Math.max(a.top, b.top) > 3;
  const said = text => "'" + text.textContent.slice(0, 60) + "'";

  function apart(texts) {
    const boxes = texts.map(text => [text, text.getBoundingClientRect()]);
    boxes.forEach(([text, box], at) => boxes.slice(at + 1).forEach(([other, there]) => {
      if (meet(box, there)) faults.push(said(text) + " lies on " + said(other));
    }));
  }
  function boxed(group, text, frame) {
    if (!inside(text.getBoundingClientRect(), frame.getBoundingClientRect())) faults.push(said(text) + " leaves its " + group);
  }

  all(document, ".drawing svg").filter(svg => svg.getClientRects().length).forEach(svg => {
    const scale = svg.getBoundingClientRect().width / svg.viewBox.baseVal.width;
    all(svg, "text").forEach(text => {
      boxed("drawing", text, svg);
      const size = parseFloat(getComputedStyle(text).fontSize) * scale;
      if (size < smallest) faults.push(said(text) + " is only " + size.toFixed(1) + " pixels high");
    });
    all(svg, ".node").forEach(node => {
      all(node, "text").forEach(text => boxed("node", text, node.querySelector(".box")));
      apart(all(node, "text"));
    });
    all(svg, ".pill").forEach(pill => boxed("pill", pill.querySelector("text"), pill.querySelector("rect")));
    all(svg, ".pin .cell").forEach(cell => boxed("cell", cell, cell.parentNode.querySelector(".pad")));
    apart(all(svg, ".pin .label, .need-name, .pill text, .arrow-name, .part, .sub"));
  });

  const wide = document.documentElement.scrollWidth;
  if (wide > innerWidth) faults.push("the page is " + wide + " pixels wide in a window of " + innerWidth);
  all(document, "h1, h2, p, li, dd, td, th, button, summary").filter(e => e.getClientRects().length).forEach(e => {
    const box = e.getBoundingClientRect();
    // the heads of a table that stands as cards are there for screen readers alone
    if (e.closest("thead") && e.closest("thead").getBoundingClientRect().width < 2) return;
    if (e.scrollWidth > e.clientWidth + 1 && e.clientWidth > 1 && getComputedStyle(e).display !== "inline") faults.push(said(e) + " is wider than its box");
    if (box.right > innerWidth + 1 || box.left < -1) faults.push(said(e) + " leaves the window");
  });
  return [...new Set(faults)].slice(0, 12);
})()
