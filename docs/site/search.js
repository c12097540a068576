// Shows the sections that have all words of the search box, those with the words in their heading first.
const box = document.getElementById("search");
box.addEventListener("input", () => {
  const words = box.value.toLowerCase().split(/\s+/).filter(Boolean);
  const has = (text) => words.every((word) => text.includes(word));
  const found = words.length ? INDEX.filter(([, , text]) => has(text)) : [];
  found.sort((one, other) => has(other[1].toLowerCase()) - has(one[1].toLowerCase()));
  document.getElementById("found").replaceChildren(
    ...found.slice(0, 20).map(([link, title]) => Object.assign(document.createElement("a"), { href: TOP + link, textContent: `${title} (${link.replace(/.*\/|\.html.*/g, "")})` })),
  );
});
