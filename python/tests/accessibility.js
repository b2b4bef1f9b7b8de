// What on the page some people could not use: names, roles and states for screen readers, keys, landmarks. These are rules of ARIA and of
// the Web Content Accessibility Guidelines that a script can judge. Answers a line for each fault.
(() => {
  const NAMED = ['button', 'slider', 'checkbox', 'searchbox', 'textbox', 'combobox', 'tab', 'tabpanel', 'tree', 'treeitem', 'listbox', 'option',
    'toolbar', 'dialog', 'region', 'tablist'];
  const WITHIN = { option: ['listbox'], treeitem: ['tree', 'treeitem'], tab: ['tablist'], listitem: ['list'] };
  const HOLDS = { list: ['listitem'], listbox: ['option'], tablist: ['tab'], tree: ['treeitem', 'group'], group: ['treeitem'] };
  const STATES = { option: ['aria-selected'], tab: ['aria-selected', 'aria-controls'] };
  const REFERENCES = ['aria-labelledby', 'aria-controls', 'aria-activedescendant', 'for', 'list'];
  const ALONE = ['button', 'option', 'slider', 'tab', 'checkbox']; // (nothing in them can be operated)
  const IMPLIED = { BUTTON: 'button', MAIN: 'main', HEADER: 'banner', DIALOG: 'dialog', OL: 'list', LI: 'listitem', SELECT: 'combobox', TEXTAREA: 'textbox' };
  const INPUTS = { range: 'slider', checkbox: 'checkbox', search: 'searchbox' };

  const isLabelled = (each) => each.hasAttribute('aria-label') || each.hasAttribute('aria-labelledby');
  const wordsOf = (each, attribute) => (each.getAttribute(attribute) || '').split(' ').filter(Boolean);
  const nameOf = (each) => wordsOf(each, 'aria-labelledby').map((id) => document.getElementById(id)?.textContent || '').join(' ').trim() ||
    each.getAttribute('aria-label') || [...(each.labels || [])].map((label) => label.textContent).join(' ').trim() || each.textContent.trim() || each.title;
  const roleOf = (each) => each.getAttribute('role') || IMPLIED[each.tagName] || (each.tagName === 'INPUT' ? INPUTS[each.type] || 'textbox' : '') ||
    (each.tagName === 'SECTION' && isLabelled(each) ? 'region' : '');
  const isHidden = (each) => each.closest('[aria-hidden=true]') !== null;
  const hasText = (each) => [...each.childNodes].some((child) => child.nodeType === Node.TEXT_NODE && child.textContent.trim());
  // The role around an element, groups apart.
  const around = (each) => { for (let at = each.parentElement; at; at = at.parentElement) if (roleOf(at) && roleOf(at) !== 'group') return roleOf(at); return ''; };
  const scrolls = (each, style) => (each.scrollHeight > each.clientHeight + 1 && /auto|scroll/.test(style.overflowY)) ||
    (each.scrollWidth > each.clientWidth + 1 && /auto|scroll/.test(style.overflowX));

  const seen = [...document.querySelectorAll('body, body *')].filter((each) => each.checkVisibility()), faults = [];
  const check = (isRight, rule, each) => { if (!isRight) faults.push(`${rule}: ${each.outerHTML.slice(0, 120)}`); };
  for (const each of seen) {
    const role = roleOf(each);
    check(!NAMED.includes(role) || nameOf(each), `${role} has no name`, each);
    check(!WITHIN[role] || WITHIN[role].includes(around(each)), `${role} is not where it belongs`, each);
    for (const child of HOLDS[role] ? each.children : [])
      check(HOLDS[role].includes(roleOf(child)) || isHidden(child) || !child.checkVisibility(), `${role} cannot hold it`, child);
    for (const state of STATES[role] || []) check(each.hasAttribute(state), `${role} lacks ${state}`, each);
    for (const reference of REFERENCES) for (const id of wordsOf(each, reference)) check(document.getElementById(id), `${reference} names nothing`, each);
    check(!ALONE.includes(role) || !each.querySelector('button, input, select, a[href], [tabindex]'), `${role} holds what is operated`, each);
    check(each.tabIndex <= 0, 'it has a place of its own in the order of Tab', each);
    check(!isHidden(each) || each.tabIndex < 0, 'it is hidden, and Tab reaches it', each);
    const byKeys = each.tabIndex >= 0 || isHidden(each) || [...each.querySelectorAll('*')].some((inner) => inner.tabIndex >= 0 && inner.checkVisibility());
    check(byKeys || !scrolls(each, getComputedStyle(each)), 'no key scrolls it', each);
    check(!hasText(each) || each.closest('header, main, dialog, section[aria-labelledby], .hidden'), 'it is in no landmark', each);
  }
  const repeated = (names) => names.filter((name, at) => names.indexOf(name) !== at);
  const levels = seen.filter((each) => /^H[1-6]$/.test(each.tagName)).map((each) => Number(each.tagName[1]));
  if (levels[0] !== 1 || levels.some((level, at) => at > 0 && (level === 1 || level > levels[at - 1] + 1))) faults.push(`the headings have the levels ${levels}`);
  faults.push(...repeated([...document.querySelectorAll('[id]')].map((each) => each.id)).map((id) => `the id ${id} is there twice`));
  faults.push(...repeated(seen.filter((each) => roleOf(each) === 'region').map(nameOf)).map((name) => `two regions are ${name}`));
  if (!document.documentElement.lang || !document.title) faults.push('the page has no language or no title');
  return faults;
})()
