// Searches texts for patterns by node's RegExp. Each line of input has a pattern and texts, in hexadecimal UTF-8 between
// blanks; each line of output says of each text whether it matches (1 or 0), by the flag `u`, or if it is no pattern with
// it without (then the line begins with `!`); `-` if there is no such pattern.
'use strict';

const { createInterface } = require('readline');

const textOf = (digits) => Buffer.from(digits, 'hex').toString('utf8');

function read(pattern) {
  try {
    return ['', new RegExp(pattern, 'u')];
  } catch {
    return ['!', new RegExp(pattern)];
  }
}

createInterface({ input: process.stdin, terminal: false }).on('line', (line) => {
  const [pattern, ...texts] = line.split(' ').map(textOf);
  try {
    const [mark, expression] = read(pattern);
    console.log(mark + texts.map((text) => (expression.test(text) ? 1 : 0)).join(''));
  } catch {
    console.log('-');
  }
});
