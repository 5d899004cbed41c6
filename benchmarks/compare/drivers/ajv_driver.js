// Judges the tests of a suite's group with Ajv: ajv_driver.js verdict|errors SUITE.
'use strict';
const fs = require('fs');
const Ajv = require('ajv');

const [mode, path] = process.argv.slice(2);
const group = JSON.parse(fs.readFileSync(path, 'utf8'))[0];
const ajv = new Ajv({allErrors: mode === 'errors', unknownFormats: 'ignore', format: false, logger: false});
const validate = ajv.compile(group.schema);
const lines = group.tests.map(test => {
    const word = validate(test.data) ? 'valid' : 'invalid';
    if (mode === 'verdict') return word;
    const errors = validate.errors || [];
    return [word, errors.length, ...errors.slice(0, 1).map(it => it.dataPath)].join(' ');
});
console.log(lines.join('\n'));
