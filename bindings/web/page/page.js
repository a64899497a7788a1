// Starts the page: loads the module, and then shows one of three views at a time.
import { load } from "../jcobs.js";
import { VIEWS, holdAddress, isNewAddress, nameView, readAddress, takeAddress } from "./address.js";
import { LINE_NAMES, setLine, startLine } from "./line.js";
import { setMessage, startMessage } from "./message.js";
import { setStream, startStream } from "./stream.js";

/** The names of the values that a link to a view may have. */
const LINKED = { message: ["text", "hex", "frame", "sentinel", "at"], stream: ["hex", "sentinel", "room", "damage", "at"], line: LINE_NAMES };

const tab = (view) => document.getElementById(`tab-${view}`);

function show(view) {
  for (const each of VIEWS) {
    const isShown = each === view;
    tab(each).setAttribute("aria-selected", String(isShown));
    tab(each).tabIndex = isShown ? 0 : -1;
    document.getElementById(each).hidden = !isShown;
  }
}

/** Shows a view and names it in the address. */
function goTo(view) {
  nameView(view);
  show(view);
}

function startTabs() {
  for (const [at, view] of VIEWS.entries()) {
    tab(view).addEventListener("click", () => goTo(view));
    tab(view).addEventListener("keydown", (event) => {
      const to = { ArrowLeft: at - 1, ArrowRight: at + 1, Home: 0, End: VIEWS.length - 1 }[event.key];
      if (to === undefined) return;
      event.preventDefault();
      const next = VIEWS[(to + VIEWS.length) % VIEWS.length];
      goTo(next);
      tab(next).focus();
    });
  }
  const take = () => {
    const { view, values, text } = takeAddress();
    show(view);
    const unknown = [...values.keys()].filter((name) => !LINKED[view].includes(name));
    complain(unknown.length > 0 ? `The page doesn't know “${unknown.join("”, “")}” of this link, “#${location.hash.slice(1, 100)}”. It knows ${LINKED[view].join(", ")}.` : "");
    if (text !== "") holdAddress();
    if (view === "line") setLine(values);
    else if (text !== "") ({ message: setMessage, stream: setStream })[view](values);
  };
  addEventListener("hashchange", () => isNewAddress() && take());
  addEventListener("popstate", () => show(readAddress().view));
  addEventListener("jcobs-open", ({ detail: view }) => {
    goTo(view);
    tab(view).focus();
  });
  take();
}

/**
 * With `?embed` in its address, the page is only a drawing for another page, with a link to the whole page. Whenever its height changes,
 * it posts `{ jcobs: "height", height: pixels }` to the other page, which can then give the frame this height.
 */
function startEmbedded() {
  if (!document.documentElement.classList.contains("embed")) return;
  const link = document.getElementById("embed-open");
  const follow = () => (link.href = location.pathname + location.hash);
  for (const event of ["pointerdown", "focus"]) link.addEventListener(event, follow);
  follow();
  if (parent === window) return;
  const post = () => parent.postMessage({ jcobs: "height", height: Math.ceil(document.documentElement.getBoundingClientRect().height) }, "*");
  new ResizeObserver(post).observe(document.documentElement);
}

/** Links to the repository's files, if the site was built with its address. */
function startLinks() {
  const { content } = document.querySelector('meta[name="repository"]');
  if (content === "") return;
  for (const link of document.querySelectorAll("a[data-file]")) link.href = content.replace(/\/*$/, "/") + link.dataset.file;
  for (const part of document.querySelectorAll(".proofs")) part.hidden = false;
}

/** Says what is wrong with the page or its link; "" if nothing is wrong. */
function complain(text) {
  const place = document.getElementById("unsupported");
  place.textContent = text;
  place.hidden = text === "";
}

/** Loads the module, and returns whether it was loaded. */
async function isLoaded() {
  try {
    await load();
    return true;
  } catch (error) {
    complain(error.kind === "unsupported" ? `This page can't run here: ${error.message}.` : `The proved code could not be loaded: ${error.message}`);
    document.getElementById("views").hidden = true;
    return false;
  }
}

document.getElementById("loading").hidden = true;
if (await isLoaded()) {
  try {
    for (const start of [startMessage, startStream, startLine, startLinks, startEmbedded, startTabs]) start();
    document.documentElement.dataset.ready = "yes";
  } catch (error) {
    complain(`An error has occurred in this page: ${error.message}`);
    throw error;
  }
}
