"use strict";
// The way back in the text, without the programs: what is printed of a program with marks, and what
// becomes of it. A printer of another style stands in for the proved one, too.
const assert = require("node:assert/strict");
const test = require("node:test");
const { print } = require("../../../bench/print.js");
const { adapt } = require("../../src/adapter.js");
const { difference, placeOf } = require("../../src/guard.js");
const { numbered } = require("../../src/numbered.js");
const { parse } = require("../../src/parser.js");
const { generated } = require("./generated.js");
const numbers = require("./numbers.js");
const waiting = require("./waiting.js");

/** A text that the parser reads as the program that it is to be, of a text with marks. */
function respelled(code, marked, program = parse(code).ast) {
  const { ast, respell } = adapt(parse(code).ast, code);
  const tree = parse(marked).ast;
  const printed = difference(ast, tree);
  assert.equal(printed && placeOf(printed), null, marked);
  const text = respell(marked, tree);
  const found = difference(program, parse(text).ast);
  assert.equal(found && placeOf(found), null, `${code}\n${marked}\n${text}`);
  return text;
}

// A program, what is printed with marks, and what that becomes.
const LITERALS = [
  ["x=.5", "x=$_n0", "x=.5"],
  ["x=.5.a", "x=$_n0.a", "x=.5.a"],
  ["x=9007199254740992..a", "x=$_n0.a", "x=9007199254740992..a"],
  ["x=9007199254740992?.a", "x=$_n0?.a", "x=9007199254740992?.a"],
  ["x=9007199254740992[a]", "x=$_n0[a]", "x=9007199254740992[a]"],
  ["x=1e999.a+1e999[a]+1e999()", "x=$_n0.a+$_n0[a]+$_n0()", "x=1e999.a+1e999[a]+1e999()"],
  ["x=a?.5:b", "x=a?$_n0:b", "x=a?.5:b"],
  ["x=[....5]", "x=[...$_n0]", "x=[....5]"],
  ["x=typeof.5,y=a in.5,z=.5 in a", "x=typeof $_n0,y=a in $_n0,z=$_n0 in a", "x=typeof.5,y=a in.5,z=.5 in a"],
  ["x=-.5-.5**2", "x=-$_n0-$_n0**2", "x=-.5-.5**2"],
  ["x=(-.5)**2,y=2**.5", "x=(-$_n0)**2,y=2**$_n0", "x=(-.5)**2,y=2**.5"],
  ["new .5;new(.5())", "new $_n0;new($_n0())", "new.5;new(.5())"],
  ["x=`${.5}`+.5`a`", "x=`${$_n0}`+$_n0`a`", "x=`${.5}`+.5`a`"],
  ["switch(a){case.5:default:}", "switch(a){case $_n0:default:}", "switch(a){case.5:default:}"],
  ["for(x of.5);for(;.5;);", "for(x of $_n0);for(;$_n0;);", "for(x of.5);for(;.5;);"],
  ["x={[.5]:.5},class{[.5]=.5}", "x={[$_n0]:$_n0},class{[$_n0]=$_n0}", "x={[.5]:.5},class{[.5]=.5}"],
  ["x=340282366920938463463374607431768211456n.a", "x=$_b0.a", "x=0x100000000000000000000000000000000n.a"],
  ["x='\\ud800'", "x=$_s0", 'x="\\ud800"'],
  ["('\\ud800')", "$_s0", '("\\ud800")'],
  ["()=>{('\\ud800')}", "()=>{$_s0}", '()=>{("\\ud800")}'],
  ["()=>'\\ud800'", "()=>$_s0", '()=>"\\ud800"'],
  ["x=['\\ud800'in a,a in'\\ud800']", "x=[$_s0 in a,a in $_s0]", 'x=["\\ud800"in a,a in"\\ud800"]'],
];

test("literals", () => {
  for (const [code, marked, text] of LITERALS) assert.equal(respelled(code, marked), text);
});

const inAsync = ([code, marked, text = code]) => [
  `async function f(){${code}}`,
  `function f(){"$_a1";${marked}}`,
  `async function f(){${text}}`,
];

// What stands in an async function.
const WAITS = [
  ["await x", "$_w1(x)"],
  ["(await x).y", "$_w1(x).y"],
  ["(await x)?.y", "$_w1(x)?.y"],
  ["(await x)[y]", "$_w1(x)[y]"],
  ["(await x)()", "$_w1(x)()"],
  ["(await x)`y`", "$_w1(x)`y`"],
  ["new(await x)", "new($_w1(x))"],
  ["new((await x).y)", "new($_w1(x).y)"],
  ["(await x)**2", "$_w1(x)**2"],
  ["2**await x", "2**$_w1(x)"],
  ["(await(a+b))**c", "$_w1(a+b)**c"],
  ["a=await x+await y*await z", "a=$_w1(x)+$_w1(y)*$_w1(z)"],
  ["-await-x,!await!x,typeof await x,delete await x", "-$_w1(-x),!$_w1(!x),typeof $_w1(x),delete $_w1(x)"],
  ["await x in y,await/x/ in y,await(x in y)", "$_w1(x)in y,$_w1(/x/)in y,$_w1(x in y)"],
  ["await x++-y,x- -await-y", "$_w1(x++)-y,x- -$_w1(-y)"],
  ["await/x/ /y,y/await x", "$_w1(/x/)/y,y/$_w1(x)", "await/x/ /y,y/ await x"],
  ["await(a,b)", "$_w1((a,b))"],
  ["await(a=b)", "$_w1(a=b)"],
  ["await(a?b:c)", "$_w1(a?b:c)"],
  ["await(a=>b)", "$_w1(a=>b)"],
  ["await(a||b)", "$_w1(a||b)"],
  ["await a?.b", "$_w1(a?.b)"],
  ["await(a?.b).c", "$_w1((a?.b).c)"],
  ["await await x", "$_w1($_w1(x))"],
  ["await(await x).y", "$_w1($_w1(x).y)"],
  ["await[a],await{},await`a`,await'a',await function(){}", "$_w1([a]),$_w1({}),$_w1(`a`),$_w1('a'),$_w1(function(){})"],
  ["await.5,(await.5).a", "$_w1($_n0),$_w1($_n0).a"],
  ["return await x", "return $_w1(x)"],
  ["return(await x).y", "return $_w1(x).y"],
  ["throw(await x)()", "throw $_w1(x)()"],
  ["if(a)(await x).y;else(await z).y", "if(a)$_w1(x).y;else $_w1(z).y"],
  ["class A extends(await x){[await y]=1}", "class A extends $_w1(x){[$_w1(y)]=1}"],
  ["f(await x,...await y)", "f($_w1(x),...$_w1(y))"],
  ["x=`${await y}`", "x=`${$_w1(y)}`"],
  ["for(await x;;);for(a in await x);for(a of await x);", "for($_w1(x);;);for(a in $_w1(x));for(a of $_w1(x));"],
  ["for(var a=await(b in c);;);", "for(var a=$_w1(b in c);;);"],
  ["for await(x of y);", "for(x of $_f1(y));"],
  ["for await(x of(a,b));", "for(x of $_f1((a,b)));"],
  ["for await(x of[])await x", "for(x of $_f1([]))$_w1(x)"],
  ["for await(async of y);", "for((async)of $_f1(y));", "for await((async)of y);"],
  ["'use strict';a", "'use strict';a"],
  ["('a');b", "('a');b"],
  ["", ""],
];

test("waits", () => {
  for (const row of WAITS) {
    const [code, marked, text] = inAsync(row);
    assert.equal(respelled(code, marked), text);
  }
});

const FUNCTIONS = [
  ["async()=>{}", '()=>{"$_a1"}'],
  ["async a=>b", 'a=>{"$_a1";return b}'],
  ["async(a,b)=>c", '(a,b)=>{"$_a1";return c}'],
  ["async async=>async", 'async=>{"$_a1";return async}'],
  ["async a=>(b,c)", 'a=>{"$_a1";return b,c}'],
  ["async a=>({}).b", 'a=>{"$_a1";return{}.b}', "async a=>({}.b)"],
  ["async a=>[]", 'a=>{"$_a1";return[]}'],
  ["async a=>function(){}", 'a=>{"$_a1";return function(){}}'],
  ["async a=>(await a).b", 'a=>{"$_a1";return $_w1(a).b}'],
  ["async a=>async b=>c", 'a=>{"$_a1";return b=>{"$_a2";return c}}'],
  ["async a=>b=>c", 'a=>{"$_a1";return b=>c}'],
  ["async a=>{return}", 'a=>{"$_a1";return}'],
  ["async a=>{b;return c}", 'a=>{"$_a1";b;return c}'],
  ["(async()=>{})()", '(()=>{"$_a1"})()'],
  ["(async a=>b)?c:d", '(a=>{"$_a1";return b})?c:d'],
  ["new(async()=>{})", 'new(()=>{"$_a1"})'],
  ["x=a?async b=>c:async(d)=>e", 'x=a?b=>{"$_a1";return c}:(d)=>{"$_a2";return e}', "x=a?async b=>c:async(d)=>e"],
  ["()=>{return async(a,b)=>c}", '()=>{return(a,b)=>{"$_a1";return c}}'],
  ["function*g(){yield async(a,b)=>c}", 'function*g(){yield(a,b)=>{"$_a1";return c}}'],
  ["for(var f=async a=>(b in c);;);", 'for(var f=a=>{"$_a1";return b in c};;);'],
  ["for(var f=async a=>{b in c};;);", 'for(var f=a=>{"$_a1";b in c};;);'],
  ["async function f(){}", 'function f(){"$_a1"}'],
  ["async function*f(){yield}", 'function*f(){"$_a1";yield}'],
  ["(async function(){})()", '(function(){"$_a1"})()'],
  ["(async function(){}())", '(function(){"$_a1"}())'],
  ["x=async function*(){}", 'x=function*(){"$_a1"}'],
  ["!async function(){}()", '!function(){"$_a1"}()'],
  ["async function f(){'use strict';a}", 'function f(){"$_a1";\'use strict\';a}'],
  ["async function f(){('b')}", 'function f(){"$_a1";(\'b\')}'],
  ["x={async f(){},async*g(){},async[h](){},async*[i](){},async'j'(){}}", 'x={f(){"$_a1"},*g(){"$_a2"},[h](){"$_a3"},*[i](){"$_a4"},\'j\'(){"$_a5"}}'],
  ["x={async get(){},async async(){},async static(){}}", 'x={get(){"$_a1"},async(){"$_a2"},static(){"$_a3"}}'],
  ["x={f:async function(){},g:async()=>{}}", 'x={f:function(){"$_a1"},g:()=>{"$_a2"}}'],
  ["class A{async f(){}async*g(){}async#h(){}async[i](){}}", 'class A{f(){"$_a1"}*g(){"$_a2"}#h(){"$_a3"}[i](){"$_a4"}}'],
  ["class A{static async f(){}static async*g(){}static async#h(){}static async[i](){}}", 'class A{static f(){"$_a1"}static*g(){"$_a2"}static#h(){"$_a3"}static[i](){"$_a4"}}'],
  ["class A{async static(){}static async static(){}}", 'class A{static(){"$_a1"}static static(){"$_a2"}}'],
  ["class A{a;async b(){}c=1;async*d(){}}", 'class A{a;b(){"$_a1"}c=1;*d(){"$_a2"}}'],
  ["class A{a=async()=>{await b};static c=async d=>d}", 'class A{a=()=>{"$_a1";$_w1(b)};static c=d=>{"$_a2";return d}}'],
];

test("functions", () => {
  for (const [code, marked, text = code] of FUNCTIONS) assert.equal(respelled(code, marked), text);
});

const MODULES = [
  ["export default async function(){}", 'export default function(){"$_a1"}'],
  ["export default async(a,b)=>c", 'export default(a,b)=>{"$_a1";return c}'],
  ["export default async a=>{}", 'export default a=>{"$_a1"}'],
  ["export default(await x).y", "export default $_w0(x).y"],
  ["await x;for await(a of b);import('c')", "$_w0(x);for(a of $_f0(b));import('c')"],
  ["export async function f(){}export const g=async()=>{}", 'export function f(){"$_a1"}export const g=()=>{"$_a2"}'],
];

test("modules", () => {
  for (const [code, marked] of MODULES) {
    const { respell } = adapt(parse(code).ast, code);
    assert.equal(respell(marked, parse(marked, { module: true }).ast), code);
  }
});

test("a loop's mark behind other expressions", () => {
  const code = "async()=>{a;for await(b of c);}";
  const { respell } = adapt(parse(code).ast, code);
  const marked = '()=>{"$_a1";for(b of(a,$_f1(c)));}';
  assert.equal(respell(marked, parse(marked).ast), "async()=>{for await(b of(a,c));}");
});

// What a `return` of an async generator becomes of results of which some are none.
const RESULTS = [
  ["return a?void 0:$_r1(b)", "if(a)return;else return b"],
  ["return a?$_r1(b):$_r1(c)", "return a?b:c"],
  ["return d(),$_r1(b)", "return d(),b"],
  ["return $_r1((a,b))", "return(a,b)"],
  ["return d(),a?$_r1(b):void e()", "{d();if(a)return b;else{e();return}}"],
  ["return a?(d(),void 0):f?$_r1(b):$_r1(c)", "if(a){d();return}else return f?b:c"],
  ["return a?(d(),void 0):$_r1(b);c", "if(a){d();return}else return b;c"],
  ["if(x)return a?$_r1(b):(d(),void 0);else c", "if(x)if(a)return b;else{d();return}else c"],
  ["if(x)return{}.a,void 0;else c", "if(x){({}.a);return}else c"],
  ["return void $_w1(a)", "{await a;return}"],
  ["return a,b?(function(){}(),void 0):$_r1($_n0)", "{a;if(b){(function(){}());return}else return.5}"],
  ["return(a,b)?void 0:$_r1(c)", "if(a,b)return;else return c"],
  ["return void 0", "return"],
];

test("results of async generators", () => {
  const code = "async function*f(){return await.5}";
  const { respell } = adapt(parse(code).ast, code);
  for (const [result, expected] of RESULTS) {
    const marked = `function*f(){"$_a1";${result}}`;
    const text = respell(marked, parse(marked).ast);
    assert.equal(text, `async function*f(){${expected}}`);
    parse(text);
  }
});

// What a page or V8 would read in another way.
const OTHERS = [
  ['x="</script>"+"</SCRIPT>"+"</b>"', 'x="<\\/script>"+"<\\/SCRIPT>"+"</b>"'],
  ["x=a</script/", "x=a<(/script/)"],
  ['x="\0"+"\0' + '1"+"\ufeff"', 'x="\\0"+"\\x001"+"\\ufeff"'],
  ['"a\0";x', '"a\0";x'],
  ["f([a]=b)", "f([a]=b)"],
  ["f(1,[a]=b,...{c}=d)", "f(1,([a]=b),...({c}=d))"],
  ["new f(1,[a]=b)", "new f(1,([a]=b))"],
  ["f([1],a=b)", "f([1],a=b)"],
];

test("what a page or V8 would read in another way", () => {
  for (const [code, text] of OTHERS) {
    assert.equal(respelled(code, code), text);
    new Function(text);
  }
});

test("marks are found in the text of any printer", () => {
  const programs = [...waiting.map(([, code]) => code), ...numbers];
  for (let seed = 1; seed <= 150; seed++) programs.push(generated(seed));
  for (const code of programs) {
    const { ast: lifted, restore } = adapt(parse(code).ast, code);
    const kept = numbered(lifted).map((node, number) => number);
    respelled(code, print(lifted), restore({ program: lifted, kept }));
  }
});
