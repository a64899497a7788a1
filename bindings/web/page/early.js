// Runs before the page is drawn. Hides the parts that an embedded page, or a view other than Message, doesn't show. If the page can't
// start, says why. This file uses only old JavaScript, so that browsers that can't run the other files can run it.
(function () {
  var root = document.documentElement;
  if (/[?&]embed\b/.test(location.search)) root.classList.add("embed");
  if (/^#(stream|line)\b/.test(location.hash)) root.classList.add("elsewhere");
  addEventListener(
    "error",
    function () {
      var place = document.getElementById("unsupported");
      if (root.dataset.ready || !place || !place.hidden) return;
      place.textContent =
        location.protocol === "file:"
          ? "A browser doesn't run the scripts of a page that is opened as a file: serve its folder, for example with bindings/web/build.sh serve."
          : "This page could not be started. It needs Chrome or Edge 92, Firefox 102 or Safari 15.4, and all of its files.";
      place.hidden = false;
      document.getElementById("loading").hidden = true;
    },
    true
  );
})();
