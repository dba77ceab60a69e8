// Keeps the drawing in the browser between two visits, as the drawing tool's text. A browser may not let a page keep anything: the
// page then says so, and goes on.

const DRAWING = "hanjolum drawing";
const THEME = "hanjolum theme";

function attempt(act) {
    try {
        return act();
    } catch {
        return undefined;
    }
}

/** The kept drawing's text; null where none is kept, undefined where nothing can be. */
export function keptDrawing() {
    return attempt(() => localStorage.getItem(DRAWING));
}

/** Keeps a drawing's text; whether it is kept. */
export function keepDrawing(text) {
    return attempt(() => {
        localStorage.setItem(DRAWING, text);
        return true;
    }) === true;
}

export function keptTheme() {
    return attempt(() => localStorage.getItem(THEME));
}

export function keepTheme(theme) {
    attempt(() => localStorage.setItem(THEME, theme));
}
