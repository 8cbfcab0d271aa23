'use strict';
/* Preloaded by `node --require`: lets the fetch of Node use the proxies of http_proxy and https_proxy, as the HTTP clients of
 * other languages do by themselves, and Node as of version 24 if NODE_USE_ENV_PROXY is set. */
const http = require('node:http');
const tls = require('node:tls');

const DISPATCHER = Symbol.for('undici.globalDispatcher.1');
const { http_proxy: plain, https_proxy: secure } = process.env;

/** Connects to a host through a proxy. */
function connectBy(proxy, { hostname, port }, callback) {
  const { hostname: host, port: proxyPort } = new URL(proxy);
  http.request({ host, port: proxyPort, method: 'CONNECT', path: `${hostname}:${port || 443}` })
    .on('connect', (response, socket) => {
      const connection = tls.connect({ socket, servername: hostname }, () => callback(null, connection));
      connection.on('error', callback);
    })
    .on('error', callback)
    .end();
}

/** Returns a dispatcher that sends requests to the proxies. */
function proxied(Agent) {
  const direct = new Agent();
  const tunnels = new Agent({ connect: (options, callback) => connectBy(secure, options, callback) });
  return Object.assign(new Agent(), {
    dispatch(options, handler) {
      const { protocol, host, origin } = new URL(options.origin);
      if (protocol === 'https:') return tunnels.dispatch(options, handler);
      const headers = Array.isArray(options.headers) ? [...options.headers, 'host', host] : { ...options.headers, host };
      return direct.dispatch({ ...options, origin: plain, path: origin + options.path, headers }, handler);
    },
  });
}

const before = globalThis.fetch;
let isReady = !plain;

globalThis.fetch = async (...args) => {
  if (!isReady) {
    await before('data:,'); // Node creates its dispatcher now
    globalThis[DISPATCHER] = proxied(globalThis[DISPATCHER].constructor);
    isReady = true;
  }
  return before(...args);
};
