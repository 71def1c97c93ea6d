/* Whether a text is the markup of a page, by the few rules that ours keeps to. */
#ifndef MARKUP_H
#define MARKUP_H

/*
 * What is wrong with a page, or NULL: letters that are no UTF-8 or controls, a
 * sign of markup that begins none, an element that is not closed, or closed
 * out of turn.
 */
const char *markup_fault(const char *page);

#endif
