'use strict';
const { randomBytes } = require('node:crypto');
const fs = require('node:fs');
const { typeError } = require('./errors');

/** Returns the file that a name leads to, or the name if there is none. */
function targetOf(name) {
  try {
    return fs.realpathSync(name);
  } catch (error) {
    if (error.code !== 'ENOENT') throw error;
    return name;
  }
}

/** Writes a new file, which its owner alone can read. It is on the disk when the call returns. */
function writeNew(name, text) {
  const file = fs.openSync(name, 'wx', 0o600);
  try {
    fs.writeFileSync(file, text);
    fs.fsyncSync(file);
  } finally {
    fs.closeSync(file);
  }
}

/** Replaces a file by one with this text, or leaves it as it is. index.d.ts documents it. */
function replaceFile(name, text) {
  if (typeof name !== 'string') throw typeError('name must be a string');
  const target = targetOf(name);
  if (fs.existsSync(target) && !fs.statSync(target).isFile()) {
    fs.writeFileSync(target, text); // a device or a pipe
    return;
  }
  const beside = `${target}.${randomBytes(6).toString('hex')}`;
  try {
    writeNew(beside, text);
    fs.renameSync(beside, target);
  } catch (error) {
    fs.rmSync(beside, { force: true });
    throw error;
  }
}

module.exports = { replaceFile };
