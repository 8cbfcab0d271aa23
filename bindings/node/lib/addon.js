'use strict';
const path = require('node:path');

const FOLDER = path.dirname(__dirname);

/** Returns the addon that build.js compiles. */
function load() {
  try {
    return require('../cookie_store.node');
  } catch (error) {
    if (error.code !== 'MODULE_NOT_FOUND') throw error;
    throw new Error(`the addon is not built: run node build.js in ${FOLDER}`, { cause: error });
  }
}

module.exports = load();
