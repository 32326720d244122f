// ---- Storage: texts that outlive the page, or stay in it where the browser stores nothing or no more ----

class Shelf {
  constructor(kind) {
    this.kind = kind;
    this.inPage = new Map();  // what the browser did not store
  }

  get(name) {
    return this.inPage.get(name) ?? this.ask(storage => storage.getItem(name));
  }

  set(name, text) {
    this.drop(name);
    const isStored = this.ask(storage => { storage.setItem(name, text); return true; });
    if (!isStored) this.inPage.set(name, text);
    sayStorage();
  }

  drop(name) {
    this.inPage.delete(name);
    this.ask(storage => storage.removeItem(name));
    sayStorage();
  }

  names() {
    return [...this.inPage.keys(), ...this.ask(storage => Object.keys(storage)) ?? []];
  }

  /** What the browser's storage answers, or null where there is none or it refuses. */
  ask(question) {
    try {
      return question(window[this.kind]);
    } catch (_) {
      return null;
    }
  }
}

const local = new Shelf("localStorage"), session = new Shelf("sessionStorage");
