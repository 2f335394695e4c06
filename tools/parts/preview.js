// Runs the script of a preview's page in a browser that is not there: `node tools/parts/preview.js PAGE`, PAGE a file of an HTML page under the number 7. It
// prints what comes of the newest numbers and pages of some lists, a line each.
const code = require('fs').readFileSync(process.argv[2], 'utf8').split('<script>').pop().split('</script>')[0];

// what is there at each look: the newest number, or null where nobody answers, and what is wrong with the page, if anything is
const lists = {
  'nothing changes': [['7'], ['7']],
  'a change': [['7'], ['8']],
  'a fault that is mended': [['7'], ['8', 'a fault'], ['8', 'a fault'], ['9']],
  'a preview that is started again': [['7'], [null], [null], ['9']],
};

async function comes_of(list) {
  const told = [];
  let now = 0;
  let next;
  const document = { createElement: () => ({}), body: { replaceChildren: (text) => told.push('shows ' + text.textContent) } };
  const location = { href: 'http://127.0.0.1:8000/', reload: () => told.push('loads') };
  const fetch = async (url) => {
    const [newest, wrong] = list[now];
    if (newest === null) throw new Error('nobody answers');
    if (url === '/_newest') return { text: async () => newest + '\n' };
    return { ok: wrong === undefined, text: async () => wrong };
  };
  new Function('document', 'location', 'fetch', 'setTimeout', code)(document, location, fetch, (look) => { next = look; });
  for (now = 0; now < list.length; now += 1) {
    if (now > 0) next();
    await new Promise((done) => setTimeout(done, 20));
  }
  return told.join(', ') || 'nothing';
}

(async () => {
  for (const [name, list] of Object.entries(lists)) console.log(name + ': ' + await comes_of(list));
})();
