// The list of places, of which those stay that have what is typed in their names or codes.
const field = document.querySelector("[data-filter]");

field?.addEventListener("input", () => {
    const text = field.value.trim().toLowerCase();
    for (const row of document.querySelectorAll("[data-place]")) {
        row.hidden = !row.textContent.toLowerCase().includes(text);
    }
});
