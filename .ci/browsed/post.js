// For .ci/pages, in a post of the forum: what the browser made of it. These are the elements in the article with their attributes and the
// schemes of addresses, whether there is a comment, what is around the article, and whether a script has run.
(() => {
  const article = document.querySelector("article"), around = document.documentElement.cloneNode(true);
  around.querySelector("article").replaceChildren();
  const { SHOW_COMMENT, SHOW_PROCESSING_INSTRUCTION, SHOW_CDATA_SECTION } = NodeFilter;
  const others = document.createTreeWalker(article, SHOW_COMMENT | SHOW_PROCESSING_INSTRUCTION | SHOW_CDATA_SECTION);
  const name = (it) => (it.namespaceURI === document.documentElement.namespaceURI ? it.localName : `${it.localName} of ${it.namespaceURI}`);
  // An address that no browser can read has no scheme.
  const scheme = (address) => (URL.canParse(address) ? new URL(address).protocol.slice(0, -1) : "");
  const attribute = (it, { name, value }) => [name, value, ["href", "src"].includes(name) ? scheme(it[name]) : ""];
  return {
    elements: [...article.querySelectorAll("*")].map((it) => [name(it), [...it.attributes].map((one) => attribute(it, one))]),
    comment: Boolean(others.nextNode()),
    around: around.outerHTML,
    ran: window.ran,
    place: location.pathname,
  };
})()
