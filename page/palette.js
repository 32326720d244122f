// ---- The palette: the colours that classes have at first. Nothing here knows of the page ----

// Colours of Okabe and Ito and of Tol that people who see no red or no green can tell apart, too.
const FIRST_COLOURS = [
  [86, 180, 233], [213, 94, 0], [240, 228, 66], [0, 158, 115], [204, 121, 167], [0, 114, 178], [230, 159, 0],
  [238, 221, 136], [221, 221, 221], [136, 34, 85], [153, 221, 255], [17, 119, 51], [238, 102, 119], [153, 153, 51],
];

// All further ones differ by lightness, saturation and hue.
const LIGHTNESSES = [.68, .42, .8, .55, .35], SATURATIONS = [.95, .5, .7], HUE_STEP = 47.1;

/** The colour that a class, from 1 on, has at first. */
function firstColour(number) {
  if (number <= FIRST_COLOURS.length) return FIRST_COLOURS[number - 1];
  const k = number - FIRST_COLOURS.length - 1, turn = Math.floor(k / LIGHTNESSES.length);
  return fromHue(k * HUE_STEP, SATURATIONS[turn % SATURATIONS.length], LIGHTNESSES[k % LIGHTNESSES.length]);
}

/** Red, green and blue of a hue in degrees, a saturation and a lightness (CSS Color Level 4). */
function fromHue(hue, saturation, lightness) {
  const reach = saturation * Math.min(lightness, 1 - lightness);
  return [0, 8, 4].map(start => {
    const place = (start + hue / 30) % 12;
    return Math.round(255 * (lightness - reach * limited(Math.min(place - 3, 9 - place), -1, 1)));
  });
}

/** A colour as an input spells it. */
const hexOf = colour => `#${colour.map(part => part.toString(16).padStart(2, "0")).join("")}`;

/** The colour that a text such as #56b4e9 spells, or null where it spells none. */
function readHex(text) {
  if (!/^#[0-9a-f]{6}$/i.test(text)) return null;
  return [1, 3, 5].map(start => Number.parseInt(text.slice(start, start + 2), 16));
}
