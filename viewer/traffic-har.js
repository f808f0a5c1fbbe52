'use strict';

// Reads a HAR, as DevTools saves it ("with sensitive data"): requests with their replies, and neither calls nor dialogs.
const Har = (() => {
  const { isText, isNumber, isObject } = Bytes;
  const isHeads = value => Array.isArray(value) && value.every(each => Bytes.wrong(each, { name: isText, value: isText }) === undefined);
  const isMoment = value => isText(value) && Number.isFinite(Date.parse(value)) && Date.parse(value) >= 0;
  const ENTRY = {
    startedDateTime: isMoment, 'time?': isNumber, 'timings?': { 'receive?': isNumber }, '_resourceType?': isText, 'pageref?': isText,
    request: { url: value => isText(value) && Bytes.url(value) !== undefined, method: isText, headers: isHeads, 'httpVersion?': isText,
      'postData?': { 'text?': isText } },
    response: { status: isNumber, 'statusText?': isText, headers: isHeads, 'content?': { 'text?': isText, 'encoding?': isText },
      '_error?': isText },
  };
  const fieldsOf = heads => heads.map(({ name, value }) => [name, value]);

  function bodyOf(content) {
    if (!isText(content?.text)) return undefined;
    return content.encoding === 'base64' ? Bytes.decoded(content.text) : Bytes.ofText(content.text);
  }

  function exchangeOf({ request, response, startedDateTime, time, timings, pageref, _resourceType }, id) {
    const start = Date.parse(startedDateTime);
    const took = time ?? 0;
    const hasReply = response.status > 0;
    return {
      from: 'har', id, url: request.url, method: request.method, start, end: start + took, blocked: [],
      headAt: start + took - Math.max(0, timings?.receive ?? 0), isMain: _resourceType === 'document', requestType: _resourceType, pageref,
      protocol: request.httpVersion?.toLowerCase(), requestFields: fieldsOf(request.headers),
      requestBody: Bytes.ofText(request.postData?.text ?? ''), replyFields: fieldsOf(response.headers), replyBody: bodyOf(response.content),
      statusLine: hasReply ? `HTTP/1.1 ${response.status} ${response.statusText ?? ''}`.trimEnd() : undefined,
      failed: response._error ?? (hasReply ? undefined : 'no reply'),
    };
  }

  function read(text, notes) {
    let har;
    if (Bytes.isDeep(text)) throw new Bytes.Unreadable('the HAR is nested deeper than any is');
    try {
      har = JSON.parse(text);
    } catch (error) {
      throw new Bytes.Unreadable(`the HAR is no JSON: ${error.message}`);
    }
    const wrong = Bytes.wrong(har, { log: { entries: Array.isArray, 'browser?': isObject } });
    if (wrong) throw new Bytes.Unreadable(`the HAR's member ${wrong} is missing or of a wrong kind`);
    const exchanges = [];
    har.log.entries.forEach((entry, at) => {
      const member = Bytes.wrong(entry, ENTRY);
      if (member) notes.put('left', 'an entry of the HAR that cannot be read', `entry ${at + 1}, member ${member}`);
      else exchanges.push(exchangeOf(entry, at));
    });
    return { exchanges };
  }

  return { read };
})();
