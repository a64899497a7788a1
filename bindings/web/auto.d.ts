// Declares the types of jcobs/auto for a module resolution that doesn't read the field "exports" of package.json, such as TypeScript's `node`.
export * from "./jcobs.js";
