// Search of the site: sections of all pages, best ones first. The index, index.js, is loaded when it is first wanted.
"use strict";

const COMMON = new Set(("a an and are as at be but by can do does for from has have how i if in is it may me my of on " +
  "or so than that the then there these this to was what when where which who why will with").split(" "));

/** The words of a question that tell it from others. */
function wordsOf(question) {
  const words = question.toLowerCase().match(/[\p{L}\p{N}_]+/gu) || [];
  const rare = words.filter((word) => !COMMON.has(word));
  return [...new Set(rare.length ? rare : words)];
}

/** The stem of a word, so that its forms find each other. */
function stemOf(word) {
  return word.length > 4 ? word.replace(/(ing|ed|es|s)$/, "") : word;
}

/** How often a stem is in a text, at most three times: within words where it is long, else where one begins. */
function countOf(text, stem) {
  const found = stem.length > 4 ? text.split(stem) : ` ${text}`.split(new RegExp(`[^\\p{L}\\p{N}]${stem}`, "u"));
  return Math.min(found.length - 1, 3);
}

/** Sections with the words, each with its score: rare words count more, those of headings most. */
function find(index, question, most) {
  const stems = wordsOf(question).map(stemOf);
  const lower = index.map((it) => [it.page, it.heading, it.text].map((text) => text.toLowerCase()));
  const counts = lower.map((parts) => stems.map((stem) => parts.map((part) => countOf(part, stem))));
  const weights = stems.map((stem, number) => {
    const count = counts.filter((of) => of[number].some((one) => one > 0)).length;
    return count ? Math.log(1 + index.length / count) : 0;
  });
  const scored = index.map((it, at) => {
    let score = 0, hits = 0;
    counts[at].forEach(([page, heading, text], number) => {
      const found = 4 * (heading > 0) + (page > 0) + text / (1 + lower[at][2].length / 2000);
      score += weights[number] * found;
      hits += found > 0;
    });
    return { it, score: score * hits * hits * it.weight };
  });
  return scored.filter((one) => one.score > 0).sort((one, other) => other.score - one.score).slice(0, most);
}

/** The part of a text around the first of the words. */
function partOf(text, stems) {
  const lower = text.toLowerCase();
  const places = stems.map((stem) => lower.indexOf(stem)).filter((at) => at >= 0);
  const from = Math.max(0, Math.min(...places, text.length) - 60);
  return (from ? ".. " : "") + text.slice(from, from + 220);
}

/** A list item of what was found. */
function itemOf(base, { page, heading, url, text }, stems) {
  const item = document.createElement("li"), link = document.createElement("a");
  link.href = base + url;
  link.textContent = heading;
  const where = document.createElement("div"), part = document.createElement("div");
  where.className = "where";
  where.textContent = page;
  const escaped = stems.map((stem) => stem.replace(/[.*+?^${}()|[\]\\]/g, "\\$&"));
  partOf(text, stems).split(new RegExp(`(${escaped.join("|")})`, "i")).forEach((piece, number) => {
    const shown = document.createElement(number % 2 ? "mark" : "span");
    shown.textContent = piece;
    part.append(shown);
  });
  item.append(link, where, part);
  return item;
}

/** Has the field show what is found in place of the page, and the page again once the field is empty. */
function listen() {
  const field = document.getElementById("search"), main = document.querySelector("main, [role=main]");
  const base = field.dataset.base, page = [...main.childNodes];
  const show = () => {
    const question = field.value.trim();
    if (!question || !window.INDEX) {
      main.replaceChildren(...page);
      return;
    }
    const found = find(window.INDEX, question, 20), list = document.createElement("ul");
    list.className = "found";
    const stems = wordsOf(question).map(stemOf);
    list.append(...found.map(({ it }) => itemOf(base, it, stems)));
    main.replaceChildren(list);
    if (!found.length) {
      main.replaceChildren(`Nothing has these words: ${question}`);
    }
  };
  field.addEventListener("focus", () => {
    if (!document.getElementById("index")) {
      const script = document.createElement("script");
      script.id = "index";
      script.src = `${base}index.js`;
      script.onload = show;
      document.head.append(script);
    }
  }, { once: true });
  field.addEventListener("input", show);
  main.addEventListener("click", (event) => {
    if (event.target.closest(".found a")) {
      field.value = "";
      setTimeout(show);
    }
  });
}

if (typeof document === "undefined") {
  module.exports = { find };
} else {
  listen();
}
