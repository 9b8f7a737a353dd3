// The messages of scripts in the language of the page.
const {lang, dataset} = document.documentElement;
const messages = lang === "en" ? {} : (await import(dataset.messages)).default;

// A message, with its parts at their names: %(row)s.
export function _(message, parts = {}) {
    return (messages[message] ?? message).replace(/%\((\w+)\)s/g, (_all, name) => parts[name]);
}
