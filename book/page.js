(function () {
  "use strict";
  var sheet = document.getElementById("sheet"), text = document.getElementById("text"), there = document.getElementById("there");
  var back = document.getElementById("back"), find = document.getElementById("find"), found = document.getElementById("found");
  var trail = [];
  function target(link) {
    var href = link && link.getAttribute("href");
    if (!href || href.charAt(0) !== "#") return null;
    var id = href.slice(1);
    return document.getElementById(id) || document.getElementById(decodeURIComponent(id));
  }
  function show(place, step) {
    var copy = place.tagName === "DT" ? document.createElement("dl") : place.cloneNode(true);
    if (place.tagName === "DT") {
      copy.className = "g";
      copy.append(place.cloneNode(true), place.nextElementSibling.cloneNode(true));
    }
    copy.removeAttribute("id");
    copy.querySelectorAll("[id]").forEach(function (x) { x.removeAttribute("id"); });
    text.replaceChildren(copy);
    there.href = "#" + place.id;
    there.textContent = place.id;
    if (step) trail.push(place);
    back.disabled = trail.length < 2;
    sheet.hidden = false;
    sheet.scrollTop = 0;
  }
  function close() {
    sheet.hidden = true;
    trail = [];
  }
  // a name in a definition opens what it means beside the text; the way there stays a plain link
  document.addEventListener("click", function (event) {
    var link = event.target.closest("a");
    if (event.button || event.ctrlKey || event.metaKey || event.shiftKey || !link) return;
    if (link === there) { close(); return; }
    var place = link.closest(".s, .n, #text") && target(link);
    if (place && (place.classList.contains("d") || place.tagName === "DT")) {
      event.preventDefault();
      show(place, true);
    }
  });
  back.addEventListener("click", function () { trail.pop(); if (trail.length) show(trail[trail.length - 1], false); });
  document.getElementById("close").addEventListener("click", close);
  document.addEventListener("keydown", function (event) { if (event.key === "Escape") { close(); found.hidden = true; } });
  // names by what is typed
  var places = null;
  find.addEventListener("input", function () {
    var word = find.value.trim().toLowerCase();
    if (!places) places = Array.from(document.querySelectorAll(".d[id], h3[id]"), function (x) { return x.id; });
    found.replaceChildren();
    var hits = word.length < 2 ? [] : places.filter(function (id) { return id.toLowerCase().indexOf(word) >= 0; });
    function rank(id) { var last = id.slice(id.lastIndexOf(".") + 1).toLowerCase(); return last === word ? 0 : last.indexOf(word) === 0 ? 1 : last.indexOf(word) > 0 ? 2 : 3; }
    hits.sort(function (a, b) { return rank(a) - rank(b) || a.length - b.length; });
    hits.slice(0, 40).forEach(function (id) {
      var item = document.createElement("li"), link = document.createElement("a");
      link.href = "#" + id;
      link.textContent = id;
      item.append(link);
      found.append(item);
    });
    found.hidden = !hits.length;
  });
  found.addEventListener("click", function () { found.hidden = true; });
  document.addEventListener("click", function (event) { if (!event.target.closest("header")) found.hidden = true; });
})();
