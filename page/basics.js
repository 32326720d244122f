"use strict";

// What the edit language and the program take at most.
const MOST_RUNS = 160, MOST_RADIUS = 255, MOST_LEVEL = 65535;

const element = id => document.getElementById(id);
const limited = (value, least, most) => Math.min(Math.max(value, least), most);
