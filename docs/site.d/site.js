// The search of the site that docs/site makes, and what is on the page, opened where there is room for it. Without this file the
// pages lack just that.
(() => {
  "use strict";
  const up = document.currentScript.dataset.up;
  const form = document.querySelector("form[role=search]");
  const input = form.querySelector("input");
  const found = form.querySelector(".found");
  const MOST = 30;
  // What can be found: the text, the title of its page, and where it is.
  let entries = null;

  // The index is loaded when it is first needed.
  const load = () => {
    if (entries) return;
    entries = [];
    const script = document.createElement("script");
    script.src = `${up}/search-index.js`;
    script.onload = () => {
      for (const [page, title, texts] of window.searchIndex) {
        entries.push({ text: title, title: "", link: page });
        for (const [anchor, text] of texts) entries.push({ text, title, link: `${page}#${anchor}` });
      }
      show();
    };
    document.head.append(script);
  };

  // How well an entry fits: all words have to be in it, or in the title of its page. A smaller number is better.
  const rank = (entry, words) => {
    const text = entry.text.toLowerCase(), title = entry.title.toLowerCase();
    let sum = 0;
    for (const word of words) {
      const at = text.indexOf(word);
      if (at < 0 && !title.includes(word)) return null;
      sum += at < 0 ? 40 : at === 0 ? 0 : /[a-z0-9]/.test(text[at - 1]) ? 20 : 10;
    }
    return words.some((word) => text.includes(word)) ? sum + Math.min(text.length, 60) / 10 : null;
  };

  const show = () => {
    const words = input.value.toLowerCase().split(/\s+/).filter(Boolean);
    found.replaceChildren();
    found.hidden = words.length === 0;
    if (found.hidden) return;
    const ranked = entries.map((entry) => [rank(entry, words), entry]).filter(([number]) => number !== null).sort((a, b) => a[0] - b[0]);
    for (const [, entry] of ranked.slice(0, MOST)) {
      const link = document.createElement("a");
      link.href = `${up}/${entry.link}`;
      link.textContent = entry.text;
      if (entry.title) link.append(Object.assign(document.createElement("small"), { textContent: entry.title }));
      found.append(link);
    }
    if (ranked.length === 0 || ranked.length > MOST) {
      const note = ranked.length === 0 ? "Nothing found" : `${ranked.length - MOST} more`;
      found.append(Object.assign(document.createElement("p"), { textContent: note }));
    }
  };

  form.hidden = false;
  input.addEventListener("focus", load);
  input.addEventListener("input", () => { load(); show(); });
  found.addEventListener("click", () => { found.hidden = true; });
  form.addEventListener("submit", (event) => {
    event.preventDefault();
    found.querySelector("a")?.click();
  });
  form.addEventListener("keydown", (event) => {
    const links = [input, ...found.querySelectorAll("a")];
    const to = links.indexOf(document.activeElement) + { ArrowDown: 1, ArrowUp: -1 }[event.key];
    if (links[to]) {
      event.preventDefault();
      links[to].focus();
    }
    if (event.key === "Escape") found.hidden = true;
  });
  document.addEventListener("click", (event) => { if (!form.contains(event.target)) found.hidden = true; });
  document.addEventListener("keydown", (event) => {
    if (event.key === "/" && !/^(INPUT|TEXTAREA)$/.test(event.target.tagName) && !event.ctrlKey && !event.metaKey && !event.altKey) {
      event.preventDefault();
      input.focus();
    }
  });

  // What is on the page stands beside it where it is wide, and folded above it else: as the style has it.
  const contents = document.querySelector(".contents");
  const wide = matchMedia("(min-width: 82rem)");
  const fold = () => { if (contents) contents.open = wide.matches; };
  wide.addEventListener("change", fold);
  fold();

  // A link into a folded part opens it.
  const unfold = () => {
    const target = document.getElementById(decodeURIComponent(location.hash.slice(1)));
    for (let it = target?.parentElement; it; it = it.parentElement) if (it.tagName === "DETAILS") it.open = true;
  };
  addEventListener("hashchange", unfold);
  unfold();

  // The place of the page in the list of pages is in sight.
  const pages = document.getElementById("pages"), here = pages.querySelector("[aria-current]");
  if (here && pages.scrollHeight > pages.clientHeight) pages.scrollTop = here.offsetTop - pages.clientHeight / 2;
})();
