#!/bin/sh
# Tests a built page and the package for node: the module and the scripts by node, and the page itself in Chromium,
# Firefox and WebKitGTK, beside the program.
# usage: bindings/page/tests/page.sh PROGRAM [FOLDER]      FOLDER has page/ptext.html and node/ (build/)
set -eu
program=$(realpath "${1:?which program?}")
built=$(realpath "${2:-build}")
page=$built/page/ptext.html
cd "$(dirname "$0")/../../.."
. tests/common.sh
if ! has node; then
    left_out "the page (there is no node)"
    [ "$bad" = 0 ]
    exit
fi
if ! node -e 'new WebAssembly.Module(fs.readFileSync(process.argv[1]))' "$built/node/ptext.wasm" 2>/dev/null; then
    left_out "the page (it was built without wasm-opt, and this node has no 64-bit memories)"
    [ "$bad" = 0 ]
    exit
fi
# in_time SECONDS WORDS..: runs a test, which is stopped if it does not end
in_time() {
    timeout --foreground "$@" || bad=$((bad + 1))
}
in_time 600 node bindings/page/tests/page.mjs "$built/node/ptext.wasm"
in_time 600 node bindings/node/tests/node.mjs "$built/node"
if has tsc; then
    mkdir -p "$room/typed/node_modules"
    ln -s "$built/node" "$room/typed/node_modules/ptext"
    cp bindings/node/tests/*.mts "$room/typed"
    known="--target es2022 --lib es2022,dom,dom.iterable --module node16"
    is "the types of a program" "" "$(cd "$room/typed" && tsc --strict --noEmit $known *.mts 2>&1)"
else
    left_out "the types of a program by a compiler of TypeScript (there is no tsc)"
fi
PTEXT_NODE=$built/node
export PTEXT_NODE
in_time 600 python3 tools/same.py "$program" 500 --by node
if [ "$built" = "$PWD/build" ]; then
    python3 tools/dist.py node "$room/dist" >"$room/said" || cat "$room/said"
    mkdir -p "$room/app/node_modules"
    tar -xzf "$room/dist/ptext-$(cat VERSION).tgz" -C "$room/app/node_modules"
    mv "$room/app/node_modules/package" "$room/app/node_modules/ptext"
    script='import { run } from "ptext"; process.stdout.write(run(["cut", "-b", "2"], { stdin: "abc" }));'
    is "the archive of the package" b "$(cd "$room/app" && node --input-type=module -e "$script")"
fi
chromium=$(command -v chromium || command -v chromium-browser || command -v google-chrome || true)
if [ "$chromium" ]; then
    in_time 1800 node bindings/page/tests/browser.mjs "$chromium" "$page" "$program"
    if has esbuild; then
        in_time 600 node bindings/node/tests/bundled.mjs "$chromium" "$built/node" "$program"
    else
        left_out "the package in a page, bundled (there is no esbuild)"
    fi
else
    left_out "the page in Chromium (it is not there)"
fi
if has firefox-esr; then
    in_time 1800 node bindings/page/tests/drivers.mjs firefox "$page" "$program"
else
    left_out "the page in Firefox (there is no firefox-esr)"
fi
if has WebKitWebDriver Xvfb; then
    in_time 1800 node bindings/page/tests/drivers.mjs webkit "$page" "$program"
else
    left_out "the page in WebKitGTK (there is no WebKitWebDriver, or no Xvfb)"
fi
[ "$bad" = 0 ]
