// ---- Behind an event: what the page does once the event at hand is over ----

// Where a pointer goes up, or a key down, and the page asks for a frame while it handles that, Chromium keeps all
// answers of the network back until that frame is drawn. So behind an edit nothing is drawn for a while: what was in
// hand stays on the screen as it is, and mostly the answer comes meanwhile.

const STILL = 50;  // milliseconds behind an edit in which nothing is drawn but its answer

/** Does something once the page is still no more. */
const behindEdit = action => setTimeout(action, STILL);

/** Does something behind whatever else waits for the page, without the pause that a timer makes. */
function behindEvent(action) {
  const { port1, port2 } = new MessageChannel();
  port1.onmessage = () => {
    port1.close();
    action();
  };
  port2.postMessage(null);
}
