"""How the page is put together: the module is compiled, the scripts are joined, and all goes into one file. page/make and page/check use it."""
import base64
import pathlib
import re
import shutil
import subprocess
import tempfile

HERE = pathlib.Path(__file__).resolve().parent
ROOT = HERE.parent
PAGE = HERE / "hanjolum.html"
STACK = 131072          # bytes of the module's stack
LIMIT = 600             # seconds after which a compiler is given up
WIDTH = 120             # letters of a line that the module is written in
WARNINGS = ["-Wall", "-Wextra", "-Wpedantic", "-Wconversion", "-Wcast-qual", "-Werror"]
PARTS = [ROOT / "portable/hanjolum.c", ROOT / "tools/draw/reading.c", HERE / "wrappers.c"]
READERS = ["get_compass_dir_from_bits", "is_pathable", "is_goal", "is_portal_goal", "has_line_of_sight", "is_wall"]
NAMED = re.compile(r'<meta name="hanjolum-compiler" content="([^"]*)">')
MODULE = re.compile(r'id="module">\n([A-Za-z0-9+/=\n]*)\n</script>')
IMPORT = re.compile(r'import \{([^}]*)\} from "\./([a-z]+)\.js";\n')
DECLARED = re.compile(r"^(?:export )?(?:async )?(?:const|let|function|class) (\w+)", re.M)


class Failed(Exception):
    """What went wrong, in words."""


def call(*words):
    """What a command prints; Failed, with the first line that says why, where it does not end well."""
    words = [str(word) for word in words]
    try:
        ran = subprocess.run(words, capture_output=True, text=True, errors="replace", timeout=LIMIT, check=False)
    except subprocess.TimeoutExpired:
        raise Failed(f"{words[0]} did not end in {LIMIT} seconds") from None
    except OSError as e:
        raise Failed(f"{words[0]}: {e.strerror}") from e
    if ran.returncode != 0:
        said = [line for line in ran.stderr.splitlines() if "error" in line] or ran.stderr.splitlines() or ["it said nothing"]
        raise Failed(f"{pathlib.Path(words[0]).name} ended with status {ran.returncode}: {said[0][:200]}")
    return ran.stdout


def need(**tools):
    """Failed where a program is not there, with its Debian package."""
    missing = [f"{tool} (Debian package {package})" for tool, package in tools.items() if not shutil.which(tool.replace("_", "-"))]
    if missing:
        raise Failed(f"not there: {', '.join(missing).replace('_', '-')}")


def compiler(clang):
    """A clang's own name and version."""
    if not shutil.which(clang):
        raise Failed(f"{clang} is not there (Debian package {pathlib.Path(clang).name})")
    return call(clang, "--version").splitlines()[0].strip()


def linker(clang):
    """The linker that goes with a clang: wasm-ld, with the same number behind it where the clang has one."""
    numbered = re.search(r"clang(-\d+)$", clang)
    name = "wasm-ld" + (numbered[1] if numbered else "")
    if not shutil.which(name):
        raise Failed(f"{name} is not there (Debian package lld{numbered[1] if numbered else ''})")
    return name


def module(clang):
    """The library, the reading of drawings and the wrappers as one module of WebAssembly, which asks for nothing."""
    compiler(clang)
    with tempfile.TemporaryDirectory() as work:
        made = [pathlib.Path(work) / f"{i}.o" for i in range(len(PARTS) + 1)]
        target = [clang, "--target=wasm32", "-ffreestanding", "-std=c11", "-O2", f"-I{ROOT / 'include'}", f"-I{ROOT / 'tools/draw'}"]
        for part, to in zip(PARTS, made):
            call(*target, *(WARNINGS if part.parent == HERE else []), "-c", part, "-o", to)
        call(*target, "-fno-builtin", "-c", ROOT / "tools/machines/memory.c", "-o", made[-1])
        wasm = pathlib.Path(work) / "page.wasm"
        kept = [f"--export=hanjolum_{name}" for name in READERS]
        call(linker(clang), "--no-entry", "--strip-all", "--stack-first", "-z", f"stack-size={STACK}", *kept, *made, "-o", wasm)
        code = wasm.read_bytes()
    if imports(code):
        raise Failed("the module asks for something that it does not bring")
    return code


def imports(code):
    """Whether a module has a section of imports: sections are a number, a length and that many bytes."""
    at = 8
    while at < len(code):
        kind, at, length, shift = code[at], at + 1, 0, 0
        while True:
            byte, at = code[at], at + 1
            length |= (byte & 127) << shift
            shift += 7
            if byte < 128:
                break
        if kind == 2:
            return True
        at += length
    return False


def scripts():
    """The scripts in an order in which each comes behind those that it takes from, by name."""
    texts = {path.stem: path.read_text() for path in sorted(HERE.glob("*.js"))}
    order = []

    def visit(name, above):
        if name in above:
            raise Failed(f"{name}.js takes from itself, by way of {', '.join(above)}")
        if name not in order:
            for taken, other in IMPORT.findall(texts[name]):
                check_taken(texts, name, taken, other)
                visit(other, [*above, name])
            order.append(name)

    for name in texts:
        visit(name, [])
    return {name: texts[name] for name in order}


def check_taken(texts, name, taken, other):
    """What a script takes from another is there to be taken."""
    if other not in texts:
        raise Failed(f"{name}.js takes from {other}.js, which is not there")
    given = re.findall(r"^export (?:async )?(?:const|function|class) (\w+)", texts[other], re.M)
    for word in filter(None, (word.strip() for word in taken.split(","))):
        if word not in given:
            raise Failed(f"{name}.js takes {word} from {other}.js, which does not give it")


def joined():
    """All scripts as one: what one takes from another is then in one room, so that no two names may be the same."""
    owner, parts = {}, []
    for name, text in scripts().items():
        body = IMPORT.sub("", text)
        if re.search(r"^import ", body, re.M):
            raise Failed(f"{name}.js has an import that is not understood: say it as import {{ a, b }} from \"./c.js\";")
        for word in DECLARED.findall(body):
            if word in owner:
                raise Failed(f"{word} is in {owner[word]}.js and in {name}.js")
            owner[word] = name
        parts.append(f"// {name}.js\n" + re.sub(r"^export ", "", body, flags=re.M))
    return "\n".join(parts)


def fill(text, mark, by):
    if text.count(mark) != 1:
        raise Failed(f"{mark} is there {text.count(mark)} times, and once is asked for")
    return text.replace(mark, by)


def page(code, named):
    """The whole page, with a module and its compiler's name."""
    script = joined()
    script = fill(script, "/* COMPILER */", named)
    if "</script" in script:
        raise Failed("a script has the words that end it")
    text = (HERE / "index.html").read_text()
    head = "<!-- Made by page/make from the files in page/; not to be edited. -->\n"
    text = fill(text, "<!-- HEAD -->", f'{head}<meta name="hanjolum-compiler" content="{named}">')
    text = fill(text, "/* STYLE */", (HERE / "style.css").read_text().rstrip())
    text = fill(text, "/* EXAMPLE */", (ROOT / "examples/cellar.txt").read_text().rstrip())
    letters = base64.b64encode(code).decode()
    text = fill(text, "/* MODULE */", "\n".join(letters[at : at + WIDTH] for at in range(0, len(letters), WIDTH)))
    return fill(text, "/* SCRIPT */", script.rstrip())
