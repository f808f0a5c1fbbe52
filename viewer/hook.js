// Runs in each new document of a recording before the document's own scripts, and tells the recorder what the page asks of FedCM and of
// the Login Status API, and what it gets. It changes nothing of what the page sees.
(() => {
  if (window !== window.top || typeof window.__fedcmTell !== 'function') return;
  const send = window.__fedcmTell;
  const tell = what => {
    try {
      send(JSON.stringify({ at: performance.timeOrigin + performance.now(), url: location.href, ...what }));
    } catch { /* the recording ends */ }
  };
  const document_ = Math.random().toString(36).slice(2, 8);
  let number = 0;

  const plain = value => {
    try {
      return JSON.parse(JSON.stringify(value));
    } catch {
      return null;
    }
  };
  const got = value => {
    if (value === undefined || value === null) return { value: String(value) };
    return { value: value.constructor?.name ?? typeof value, token: value.token, auto: value.isAutoSelected, config: value.configURL };
  };
  const failed = error => ({ error: error?.name ?? String(error), message: error?.message, code: error?.code, url: error?.url,
    errorCode: error?.error });

  function wrap(object, name, make) {
    const own = object?.[name];
    if (typeof own === 'function') object[name] = make(own);
  }

  // Tells of a call before it runs, and of its promise once it settles.
  function call(what, options, activation, run) {
    number += 1;
    const id = `${document_}.${number}`;
    tell({ what, call: id, options, activation });
    let promise;
    try {
      promise = run(id);
    } catch (error) {
      tell({ what: 'result', call: id, ...failed(error) });
      throw error;
    }
    promise.then(value => tell({ what: 'result', call: id, ...got(value) }), error => tell({ what: 'result', call: id, ...failed(error) }));
    return promise;
  }

  if (window.CredentialsContainer) {
    wrap(CredentialsContainer.prototype, 'get', own => function get(options) {
      if (!options?.identity) return own.apply(this, arguments);
      return call('get', plain({ ...options, signal: undefined }), navigator.userActivation?.isActive ?? null, id => {
        options.signal?.addEventListener('abort', () => tell({ what: 'abort', call: id }));
        return own.apply(this, arguments);
      });
    });
    wrap(CredentialsContainer.prototype, 'preventSilentAccess', own => function preventSilentAccess() {
      tell({ what: 'prevent' });
      return own.apply(this, arguments);
    });
  }
  wrap(window.IdentityCredential, 'disconnect', own => function disconnect(options) {
    return call('disconnect', plain(options), null, () => own.apply(this, arguments));
  });
  wrap(window.IdentityProvider, 'close', own => function close() {
    tell({ what: 'idpclose' });
    return own.apply(this, arguments);
  });
  if (navigator.login) {
    wrap(Object.getPrototypeOf(navigator.login), 'setStatus', own => function setStatus(status) {
      tell({ what: 'setstatus', status });
      return own.apply(this, arguments);
    });
  }
})();
