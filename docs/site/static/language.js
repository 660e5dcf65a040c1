// The language of code that a reader chose last is the one that all pages show first.
addEventListener("DOMContentLoaded", () => {
    const labels = [...document.querySelectorAll(".tab-label")];
    const named = name => labels.filter(it => it.textContent === name);
    let chosen = null;
    try {
        chosen = localStorage.getItem("language");
    } catch { /* a browser that keeps nothing */ }
    for (const it of named(chosen)) it.previousElementSibling.checked = true;
    for (const it of labels) it.addEventListener("click", () => {
        try {
            localStorage.setItem("language", it.textContent);
        } catch { /* as above */ }
    });
});
