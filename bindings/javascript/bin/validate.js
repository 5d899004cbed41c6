#!/usr/bin/env node
import { mainOf } from "../src/command/main.js";

process.exitCode = await mainOf("validate", process.argv.slice(2));
