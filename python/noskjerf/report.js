(function () {
  "use strict";
  var slider = document.getElementById("interval");
  var all = document.getElementById("all");
  var only = document.getElementById("only");
  var unfold = document.getElementById("unfold");
  var told = document.getElementById("told");
  var blocks = document.querySelectorAll(".interval");
  var resources = document.querySelectorAll(".resource");
  var workings = document.querySelectorAll("details.working");
  var bar = document.querySelector(".slider");

  // an hour with one interval has no slider, and one with a single resource nothing to leave out
  function show() {
    var chosen = slider && !all.checked ? slider.value : "";
    if (slider) {
      slider.disabled = all.checked;
      told.textContent = chosen ? chosen + " of " + slider.max : "all " + slider.max;
      slider.setAttribute("aria-valuetext", "interval " + told.textContent);
    }
    blocks.forEach(function (block) {
      block.hidden = chosen !== "" && block.dataset.interval !== chosen;
    });
    resources.forEach(function (resource) {
      var cut = resource.dataset.cut.split(" ");
      var left_out = chosen ? cut.indexOf(chosen) < 0 : cut[0] === "";
      resource.hidden = only !== null && only.checked && left_out;
    });
  }

  // hour.html#interval-3 opens at interval 3; a link to a resource shows it
  function follow() {
    var asked = /^#interval-(\d+)$/.exec(location.hash);
    if (asked && slider) { slider.value = asked[1]; }
    var target = /^#resource-\d+$/.test(location.hash) && document.getElementById(location.hash.slice(1));
    if (target && target.hidden) { only.checked = false; }
    show();
    if (target) { target.scrollIntoView(); }
  }

  // what a link leads to isn't hidden by the bar, however many lines that has
  function keep_clear() {
    document.documentElement.style.scrollPaddingTop = bar ? bar.offsetHeight + 12 + "px" : "";
  }

  [slider, all, only].forEach(function (control) {
    if (control) { control.addEventListener("input", show); }
  });
  if (unfold) {
    unfold.addEventListener("input", function () {
      workings.forEach(function (working) { working.open = unfold.checked; });
    });
  }
  window.addEventListener("hashchange", follow);
  window.addEventListener("resize", keep_clear);
  document.documentElement.classList.add("js");
  keep_clear();
  follow();
})();
