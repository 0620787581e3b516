"use strict";

/**
 * An eslint rule for the scripts of a board's page: modules share state only in the store, and keep their own state to themselves.
 * State is every `let` of a module, and every constant with a lower-case name that is not a function. A module must not export it, return
 * it from an exported function, or let an exported function store an argument there, such as a callback. A constant with an upper-case
 * name must not change. A module that needs more than three `let` keeps them in one record.
 */
const CHANGES = ["add", "clear", "delete", "fill", "pop", "push", "set", "shift", "sort", "splice", "unshift"];
const MOST = 3;

const isFunction = (node) => Boolean(node) && /Function/.test(node.type);
const isUpper = (name) => name === name.toUpperCase();

/** Returns the variable's declarator, or null if it is declared in another way. */
const declaratorOf = ({ defs: [def] }) => (def && def.type === "Variable" ? def.node : null);

/** Returns true if a constant is what `newStore` returns, or a part of it. */
const isStore = ({ init }) => Boolean(init) && init.type === "CallExpression" && init.callee.name === "newStore";

function isState(variable) {
  const made = declaratorOf(variable);
  if (!made || isStore(made)) return false;
  return made.parent.kind !== "const" || !isUpper(variable.name) && !isFunction(made.init) && Boolean(made.init)
    && made.init.type !== "ClassExpression";
}

/** Returns the innermost function around a node, or null. */
function functionAround(node) {
  let found = node.parent;
  while (found && !isFunction(found)) found = found.parent;
  return found;
}

/** Returns the whole chain of members that begins with a node, such as `a.b.c` for `a`. */
function chainOf(node) {
  let found = node;
  while (found.parent.type === "MemberExpression" && found.parent.object === found) found = found.parent;
  return found;
}

/** Returns true if a chain of members, which looks nothing up in a table, is what a declaration gives other names. */
function isNamed(chain) {
  let node = chain;
  while (node.type === "MemberExpression" && !node.computed) node = node.object;
  return node.type === "Identifier" && chain.parent.type === "VariableDeclarator" && chain.parent.init === chain;
}

/** Returns true if what a function returns has a node in it. */
function isReturned(node, made) {
  for (let it = node; it && it !== made; it = it.parent) {
    if (it.type === "ReturnStatement" || it.parent === made && made.body === it && it.type !== "BlockStatement") return true;
    if (isFunction(it)) return false;
  }
  return false;
}

/** Returns what is assigned or added to a variable where it is used, or a node that changes it otherwise, or null. */
function putInto(node) {
  const chain = chainOf(node), { parent } = chain;
  if (parent.type === "AssignmentExpression" && parent.left === chain) return parent.operator === "=" ? parent.right : parent;
  const isCall = parent.type === "CallExpression" && parent.callee === chain && chain.type === "MemberExpression";
  return isCall && CHANGES.includes(chain.property.name) ? chain.property.name !== "set" && parent.arguments[0] || parent : null;
}

module.exports = {
  meta: { type: "problem", schema: [] },
  create(context) {
    const { scopeManager } = context.getSourceCode();

    /** Returns the names that a module exports. */
    function exported(program) {
      return new Set(program.body.filter((it) => it.type.startsWith("Export")).flatMap((it) => [
        ...(it.specifiers || []).map((one) => one.local.name),
        ...(it.declaration ? context.getDeclaredVariables(it.declaration).map(({ name }) => name) : []),
        ...(it.declaration && it.declaration.type === "Identifier" ? [it.declaration.name] : [])]));
    }

    /** Returns the exported function around a node, if the node is in one. */
    function exportedAround(node, functions) {
      let found = functionAround(node);
      while (found && !functions.has(found)) found = functionAround(found);
      return found;
    }

    /** Returns the nodes that are the state which a node names: it, and where a function has given that another name. */
    function namesOf(node) {
      const chain = chainOf(node), others = isNamed(chain) ? context.getDeclaredVariables(chain.parent) : [];
      return [node, ...others.flatMap(({ references }) => references.map(({ identifier }) => identifier))];
    }

    /** Returns true if a node is a parameter of a function. */
    const isGiven = (node, made) => node.type === "Identifier"
      && context.getDeclaredVariables(made).some(({ name, defs: [def] }) => name === node.name && def.type === "Parameter");

    return {
      Program(program) {
        const scope = scopeManager.acquire(program, true), names = exported(program);
        const nodeOf = ({ defs: [def] }) => (def && isFunction(def.node) ? def.node : def && def.node.init);
        const functions = new Set(scope.variables.filter(({ name }) => names.has(name)).map(nodeOf).filter(isFunction));
        const report = (node, message, name) => context.report({ node, message: `'${name}' ${message}` });
        for (const variable of scope.variables) {
          const made = declaratorOf(variable), { name } = variable;
          if (!made || isStore(made)) continue;
          const uses = variable.references.map(({ identifier }) => identifier).filter((it) => it.parent !== made);
          if (!isState(variable)) {
            for (const it of isFunction(made.init) ? [] : uses) if (putInto(it)) report(it, "is a constant that changes.", name);
            continue;
          }
          if (names.has(name)) report(made, "is exported: what other modules read is in the store.", name);
          for (const it of uses) {
            const around = exportedAround(it, functions), put = around && putInto(it);
            if (put && isGiven(put, around)) report(it, "stores an argument: what other modules set is in the store.", name);
            if (around && namesOf(it).some((node) => isReturned(node, around))) report(it, "is returned: what other modules read is in the store.", name);
          }
        }
        const lets = scope.variables.filter((it) => declaratorOf(it) && declaratorOf(it).parent.kind === "let");
        if (lets.length > MOST) report(program, `and others: keep more than ${MOST} in one record.`, lets[0].name);
      }
    };
  }
};
