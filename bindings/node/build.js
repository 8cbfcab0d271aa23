'use strict';
/* Builds the addon, cookie_store.node, by a C compiler and without a network.
 *
 *     node build.js [--if-missing]
 *
 * The C library is the one that pkg-config finds as cookie_store. These variables change that:
 *
 *     COOKIE_STORE_STATIC=1        links its static library, so that the addon needs no shared one
 *     COOKIE_STORE_ARCHIVE=FILE    links a static library that the toolchain built, by tools/install of the repository
 *     CC                           the C compiler, cc
 *
 * With --if-missing it does nothing if there is an addon. Exit status: 0; 1, with a line that says why, if it is not built. */
const { spawnSync } = require('node:child_process');
const fs = require('node:fs');
const os = require('node:os');
const path = require('node:path');

const ADDON = path.join(__dirname, 'cookie_store.node');
const INSTALL = path.join(__dirname, '..', '..', 'tools', 'install');
const INCLUDES = [path.join(path.dirname(process.execPath), '..', 'include', 'node'), '/usr/include/node'];

/** What stops the build. */
class Missing extends Error {}

/** Returns what a command prints. If it fails, `why` says what is missing, or else what the command printed. */
function run(command, args, why) {
  const done = spawnSync(command, args, { encoding: 'utf8' });
  if (done.error) throw new Missing(`${command} cannot be run: ${done.error.code}`);
  if (done.status !== 0) throw new Missing(why ?? `${command} fails:\n${done.stderr}`);
  return done.stdout.trim();
}

/** Returns the folder of node_api.h. */
function headers() {
  const folder = INCLUDES.find((each) => fs.existsSync(path.join(each, 'node_api.h')));
  if (folder === undefined) throw new Missing(`node_api.h is not in ${INCLUDES.join(' or ')}: install the headers of Node`);
  return folder;
}

/** Returns the flags of a static library, whose functions stay inside the addon. */
function flagsOfStatic(prefix) {
  return [`-I${prefix}/include`, `${prefix}/lib/libcookie_store.a`, '-Wl,--exclude-libs,ALL'];
}

/** Returns the flags of the library that pkg-config finds. The addon looks for a shared one in its folder too. */
function flagsOfInstalled() {
  const why = 'pkg-config does not find cookie_store: set PKG_CONFIG_PATH to PREFIX/lib/pkgconfig of its installation';
  const ask = (...args) => run('pkg-config', [...args, 'cookie_store'], why);
  if (process.env.COOKIE_STORE_STATIC === '1') return flagsOfStatic(ask('--variable=prefix'));
  return [...ask('--cflags', '--libs').split(/\s+/), `-Wl,-rpath,${ask('--variable=libdir')}`];
}

/** Calls back with the flags of the library. */
function withLibrary(compile) {
  if (!process.env.COOKIE_STORE_ARCHIVE) return compile(flagsOfInstalled());
  if (!fs.existsSync(INSTALL)) throw new Missing('COOKIE_STORE_ARCHIVE is for a clone of the repository');
  const prefix = fs.mkdtempSync(path.join(os.tmpdir(), 'cookie_store-'));
  try {
    run(INSTALL, [prefix]);
    return compile(flagsOfStatic(prefix));
  } finally {
    fs.rmSync(prefix, { recursive: true });
  }
}

/** Replaces the addon at once: a program may have loaded the old one. */
function compile(flags) {
  const [command, ...words] = (process.env.CC || 'cc').split(' ');
  const beside = `${ADDON}.${process.pid}`;
  const source = [`-I${headers()}`, path.join(__dirname, 'addon.c')];
  run(command, [...words, '-std=c11', '-O2', '-shared', '-fPIC', '-fvisibility=hidden', '-o', beside, ...source, ...flags]);
  fs.renameSync(beside, ADDON);
}

try {
  if (!(process.argv[2] === '--if-missing' && fs.existsSync(ADDON))) withLibrary(compile);
} catch (error) {
  if (!(error instanceof Missing)) throw error;
  console.error(`build.js: ${error.message}`);
  process.exitCode = 1;
}
