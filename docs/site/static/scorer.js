// The order of what the search finds: guides that have the word in their title, then items with exactly this name, then
// other guides, documents, items with the name in theirs, and last the libraries in Rattle. Shorter names come first.
var Scorer = { // as searchtools.js declares it
    score([page, title, , kind, score]) {
        const asked = new URLSearchParams(location.search).get("q").trim().toLowerCase();
        const shorter = score / 10 - title.length / 1000;
        if (/^docs\/guides\/[a-z]/.test(page)) return (score >= this.title ? 400 : 120) + shorter;
        if (/^(reference\/rattle\/|crates\/)/.test(page)) return shorter;
        if (!kind) return 80 + shorter;
        const name = title.toLowerCase(), last = name.split(/[._:[\]]+/).at(-1);
        return (name === asked || last === asked ? 200 : 40) + shorter;
    },
    objNameMatch: 11,
    objPartialMatch: 6,
    objPrio: { 0: 15, 1: 5, 2: -5 },
    objPrioDefault: 0,
    title: 15,
    partialTitle: 7,
    term: 5,
    partialTerm: 2,
};
