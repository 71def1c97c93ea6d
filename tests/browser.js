/* What tests/browser.py asks of a page: what a reader sees there, and in which colours. */
const one = selector => document.querySelector(selector);
const all = selector => [...document.querySelectorAll(selector)];
const said = node => node.textContent.trim().replace(/\s+/g, ' ');

/* After this the page stands where a link leads: a browser scrolls there when it next draws. */
const drawn = () => new Promise(done => requestAnimationFrame(() => requestAnimationFrame(() => done(true))));

/* Where one clicks on an element: in the middle of its first line. */
const middleOf = element => {
    const {left, right, top, bottom} = element.getClientRects()[0];
    return [(left + right) / 2, (top + bottom) / 2];
};

/* Whether an element lies in the window, wholly, and its middle is not covered by another's. */
const isSeen = element => {
    const {left, right, top, bottom, width, height} = element.getBoundingClientRect();
    const above = document.elementFromPoint(...middleOf(element));
    return width > 0 && height > 0 && left >= 0 && right <= innerWidth && top >= 0 && bottom <= innerHeight &&
        element.checkVisibility({opacityProperty: true, visibilityProperty: true}) &&
        (element.contains(above) || above?.classList.contains('link'));
};

/* Whether an element begins in the window, with as much of it below as there is room for, from side to side. */
const isBegun = element => {
    const {left, right, top} = element.getBoundingClientRect(), above = document.elementFromPoint(left + 2, top + 2);
    return left >= 0 && right <= innerWidth && top >= 0 && top < innerHeight && element.contains(above);
};

/* Whether an element lies in the part of its box that the window shows, from side to side and from top to bottom. */
const isInBox = (element, box) => {
    const inner = element.getBoundingClientRect(), outer = box.getBoundingClientRect();
    return inner.left >= Math.max(0, outer.left) && inner.right <= Math.min(innerWidth, outer.right) &&
        inner.top >= 0 && inner.bottom <= innerHeight;
};

/* The texts that are shown. What is in a closed Step has no size, and asking for it lays the whole page out each time. */
const isClosed = node => node.nodeType === Node.ELEMENT_NODE && node.matches('details:not([open]) > :not(summary)');
const shownNodes = function* () {
    const walker = document.createTreeWalker(document.body, NodeFilter.SHOW_ELEMENT | NodeFilter.SHOW_TEXT,
                                             node => isClosed(node) ? NodeFilter.FILTER_REJECT : NodeFilter.FILTER_ACCEPT);
    while (walker.nextNode())
        yield walker.currentNode;
};
const rectsOf = node => {
    const range = document.createRange();
    range.selectNodeContents(node);
    return [...range.getClientRects()].filter(({width}) => width > 0);
};

/* What is cut off in a window of that width, and how many texts were looked at. The timeline scrolls in its box on a screen,
   and its texts lie within their picture. */
const cutOff = width => {
    const faults = [], slack = 0.5, begun = node => said(node).slice(0, 60), page = document.documentElement;
    let texts = 0;
    const trySize = element => {
        if (element.closest('svg, .rows'))
            return;
        if (element.clientWidth > 0 && element.scrollWidth > element.clientWidth)
            faults.push(`${element.localName} ${element.scrollWidth} wide in ${element.clientWidth}: ${begun(element)}`);
        /* a phone shows no bar to scroll it by */
        if (innerWidth < 600 && element.clientHeight > 0 && element.scrollHeight > element.clientHeight + 1)
            faults.push(`${element.localName} ${element.scrollHeight} high in ${element.clientHeight}: ${begun(element)}`);
    };
    const tryText = node => {
        const frame = node.parentElement.closest('svg')?.getBoundingClientRect() ??
            {left: 0, right: innerWidth, top: -Infinity, bottom: Infinity};
        for (const {left, right, top, bottom} of rectsOf(node)) {
            texts++;
            if (left < frame.left - slack || right > frame.right + slack ||
                top < frame.top - slack || bottom > frame.bottom + slack)
                faults.push(`text ${left} to ${right}, ${top} to ${bottom}: ${begun(node)}`);
        }
    };
    if (innerWidth !== width || page.scrollWidth > page.clientWidth)
        faults.push(`the page is ${page.scrollWidth} wide in ${page.clientWidth} of ${innerWidth}`);
    for (const node of shownNodes())
        (node.nodeType === Node.TEXT_NODE ? tryText : trySize)(node);
    return {faults: faults.slice(0, 5), texts};
};

/* Colours: red, green and blue to 255, and how much covers. */
const colour = (text, opacity = 1) => {
    const [red, green, blue, alpha = 1] = text === 'none' ? [0, 0, 0, 0] : text.match(/[\d.]+/g).map(Number);
    return [red, green, blue, alpha * opacity];
};
const over = (top, below) => [...[0, 1, 2].map(i => top[i] * top[3] + below[i] * (1 - top[3])), 1];
const linear = part => part <= 0.04045 ? part / 12.92 : ((part + 0.055) / 1.055) ** 2.4;
const luminance = ([red, green, blue]) =>
    0.2126 * linear(red / 255) + 0.7152 * linear(green / 255) + 0.0722 * linear(blue / 255);
/* By the Web Content Accessibility Guidelines: 1 for the same, 21 for black on white. */
const contrast = (top, below) => {
    const [light, dark] = [luminance(over(top, below)), luminance(below)].sort((one, other) => other - one);
    return (light + 0.05) / (dark + 0.05);
};

/* What an element paints behind its texts. */
const painted = element => {
    const style = getComputedStyle(element);
    if (element instanceof SVGGeometryElement)
        return colour(style.fill, style.fillOpacity);
    return element instanceof SVGElement ? colour('none') : colour(style.backgroundColor);
};
const WHITE = [255, 255, 255, 1];
const behind = (x, y) =>
    document.elementsFromPoint(x, y).reverse().map(painted).reduce((below, top) => over(top, below), WHITE);

/* The texts of the window that stand out less than they have to, with how much they do, and how many were looked at. */
const faintTexts = least => {
    const faint = [];
    let texts = 0;
    const tryAt = (ink, x, y, text) => {
        if (y >= innerHeight)
            return;
        const seen = contrast(ink, behind(x, y));
        texts++;
        if (!(seen >= least))
            faint.push(`${seen.toFixed(2)} at ${Math.round(x)}, ${Math.round(y)}: ${text}`);
    };
    const tryText = node => {
        const style = getComputedStyle(node.parentElement), isDrawn = node.parentElement instanceof SVGElement;
        const ink = isDrawn ? colour(style.fill, style.fillOpacity) : colour(style.color);
        for (const {left, right, top, bottom} of rectsOf(node))
            for (const x of [left + 1, (left + right) / 2, right - 1])
                tryAt(ink, x, (top + bottom) / 2, said(node));
    };
    const trySign = element => {
        const sign = getComputedStyle(element, '::before'), {left, top} = element.getBoundingClientRect();
        if (!['none', 'normal'].includes(sign.content))
            tryAt(colour(sign.color), left + 2, top + 4, sign.content);
    };
    for (const node of shownNodes())
        if (node.nodeType !== Node.TEXT_NODE)
            trySign(node);
        else if (said(node) && !node.parentElement.closest('title'))
            tryText(node);
    return {faint: faint.slice(0, 5), texts};
};

/* How a shape of the timeline looks: how far its fill and its border stand out from what they lie on, and its form. */
const lookOf = element => {
    const style = getComputedStyle(element), width = parseFloat(style.strokeWidth);
    const paper = over(colour(getComputedStyle(document.body).backgroundColor), WHITE);
    const lane = over(colour(getComputedStyle(one('.rows .lane')).fill), paper);
    const grounds = element.matches('.lane') ? [paper] : [paper, lane];
    const leastOf = ink => Math.min(...grounds.map(ground => contrast(ink, ground)));
    const fill = leastOf(colour(style.fill, style.fillOpacity));
    const border = width > 0 ? leastOf(colour(style.stroke, style.strokeOpacity)) : 1;
    const form = `${fill > 1 ? 'filled' : 'hollow'}, border ${border > 1 ? width : 0} ${style.strokeDasharray}`;
    return {fill, border, form, colours: `${style.fill} ${style.fillOpacity}`};
};
