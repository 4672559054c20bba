"""Makes the haystacks: files of installed Debian packages, and texts by generators with fixed seeds.

Those of packages depend on the machine, so figures over them are to be compared within one run."""
import glob
import json
import os
import random
import string
import subprocess

KIB = 1024
SIZE = 512 * KIB

RUSSIAN = ("и в не на я быть он с что а по это она этот к но они мы весь который из у то за свой от год человек так о один время "
           "дело рука раз мир жизнь день слово место лицо друг глаз вопрос дом сторона страна Москва город Россия работа голова "
           "слава школа начало Солнце вода история система").split()
GREEK = ("και το να του η της με που την από για είναι στο θα τα τον οι των σε ένα τη μας στην δεν αυτό έχει κόσμος ζωή άνθρωπος "
         "ημέρα νερό Αθήνα Ελλάδα γλώσσα θάλασσα χρόνος λόγος σπίτι δρόμος βιβλίο μέρα").split()
CHINESE = list("的一是在不了有和人这中大为上个国我以要他时来用们生到作地于出就分对成会可主发年动同工也能下过子说产种面而方后多定行学法所民"
               "得经十三之进着等部度家电力里如水化高自二理起小物现实加量都两体制机当使点从业本去把性好应开它合还因由其些然前外天政四"
               "日那社义事平形相全表间样与关各重新线内数正心反你明看原又么利比或但质气第向道命此变条只没结解问意建月公无系军很情者最立"
               "代想已通并提直题党程展五果料象员革位入常文总次品式活设及管特件长求老头基资边流路级少图山统接知较将组见计别她手角期根论运农指")
JAPANESE = "これ は テスト です 日本 語 の 文章 を 書く 時 に カタカナ と ひらがな 漢字 コンピュータ".split()
KOREAN = "안녕하세요 세계 한국어 문장 입니다 그리고 사람 시간 나라 서울 컴퓨터".split()
ARABIC = "السلام عليكم العالم في من على كتاب لغة عربية مدينة".split()
HINDI = "नमस्ते दुनिया यह एक वाक्य है और भाषा हिन्दी".split()
MANY_TONGUES = [
    "Straße über schön grün Mädchen Brücke Frühling Käse zwölf heißt Größe Jahr und die der mit".split(),
    "мир слово город книга Москва время ответ человек и в не на большой язык река привет".split(),
    "λόγος ψυχή θάλασσα Αθήνα καὶ τὸ ἐν άνθρωπος ημέρα φως νερό γλώσσα".split(),
    "été garçon naïve cœur où déjà Noël français l'île élève".split(),
    "the house of words and ten more lines that carry plain text".split(),
    ["世界", "言葉", "東京", "時間", "水", "漢字", "日本語", "中文"],
]


def files_of(package, keep):
    """The files of a Debian package that are kept."""
    listed = subprocess.run(["dpkg", "-L", package], capture_output=True, text=True, check=True)
    return sorted(path for path in listed.stdout.splitlines() if os.path.isfile(path) and keep(path))


def joined(paths, size=SIZE, ascii_only=False):
    """The texts of the files, up to the last whole line within so many bytes."""
    out, have = [], 0
    for path in paths:
        try:
            with open(path, encoding="utf-8", newline="") as file:
                text = file.read().replace("\r\n", "\n")
        except (UnicodeDecodeError, OSError):
            continue
        if ascii_only and not text.isascii():
            continue
        out.append(text)
        have += len(text.encode())
        if have >= size:
            break
    text = "".join(out).encode()[:size].decode("utf-8", "ignore")
    return text[: text.rfind("\n") + 1]


def repeated(make, size):
    """What `make` gives, again and again, until there are so many bytes."""
    out, have = [], 0
    while have < size:
        part = make()
        out.append(part)
        have += len(part.encode())
    return "".join(out)


def headers():
    return sorted(glob.glob("/usr/include/*.h")) + sorted(glob.glob("/usr/include/**/*.h", recursive=True))


def crates():
    out = []
    for package in ("librust-regex-dev", "librust-fancy-regex-dev", "librust-aho-corasick-dev"):
        out += files_of(package, lambda path: path.endswith(".rs") and "/src/" in path)
    return out


def english():
    paths = []
    for pattern in ("/usr/share/common-licenses/*", "/usr/share/doc/*/README*", "/usr/share/doc/*/copyright"):
        paths += sorted(glob.glob(pattern))
    return joined([it for it in paths if not os.path.islink(it) and not it.endswith(".gz")], 1024 * KIB)


def code():
    rust = sorted(glob.glob("/usr/share/cargo/registry/*/src/**/*.rs", recursive=True))
    return joined(rust, 512 * KIB) + joined(headers(), 512 * KIB)


def log():
    r = random.Random(20261122)
    levels = ["DEBUG"] * 5 + ["INFO"] * 12 + ["WARN"] * 3 + ["ERROR"] * 2 + ["FATAL"]
    names = "ada bjorn carla dmitri emeka fatima goro hana ines jonas kofi lena".split()
    hosts = "example.org mail.example.net shop.example.com api.internal.example".split()
    verbs = "opened closed moved refused accepted renewed dropped parsed stored".split()
    things = "session cart invoice socket request cache index table report queue".split()
    second = 0

    def message(user):
        kind = r.randrange(6)
        if kind == 0:
            return f"user={user} {r.choice(verbs)} the {r.choice(things)} in {r.randrange(900)}.{r.randrange(1000):03d} ms"
        if kind == 1:
            return (f"paid ${r.randrange(3000)}.{r.randrange(100):02d} by <{user}@{r.choice(hosts)}> "
                    f"for order={r.getrandbits(32):08x}")
        if kind == 2:
            return (f"GET https://{r.choice(hosts)}/{r.choice(things)}/{r.randrange(10 ** 6)}?id={r.getrandbits(40):x} "
                    f"status={r.choice([200, 200, 200, 304, 404, 500])} size={r.randrange(10 ** 7)}")
        if kind == 3:
            return f"config name=\"{r.choice(things)}\" path='/srv/{user}/{r.choice(things)}' mode={r.randrange(512):o}"
        if kind == 4:
            return f"mail from {user}.{r.choice(things)}@{r.choice(hosts)} to {r.choice(names)}@{r.choice(hosts)} queued"
        return (f"{r.choice(things)} timeout after {r.randrange(60)} s, error code {r.randrange(100, 999)}, "
                f"retry {r.randrange(1, 6)} of 5")

    def line():
        nonlocal second
        second += r.randrange(1, 40)
        day, rest = divmod(second, 86400)
        stamp = (f"2026-{1 + day // 28 % 12:02d}-{1 + day % 28:02d}T{rest // 3600:02d}:{rest // 60 % 60:02d}:{rest % 60:02d}"
                 f".{r.randrange(1000):03d}Z")
        address = ".".join(str(r.randrange(256)) for _ in range(4))
        return f"{stamp} {address} [{r.choice(levels)}] {message(r.choice(names))}\n"

    return repeated(line, SIZE)


def access_log():
    r = random.Random(77)
    hosts = [f"10.0.{r.randrange(256)}.{r.randrange(256)}" for _ in range(60)]
    hosts += [f"2001:db8::{r.getrandbits(16):x}" for _ in range(8)] + [f"host{k}.example.net" for k in range(20)]
    agents = ["Mozilla/5.0 (X11; Linux x86_64) AppleWebKit/537.36 (KHTML, like Gecko) Chrome/120.0.0.0 Safari/537.36", "curl/8.5.0",
              "Mozilla/5.0 (iPhone; CPU iPhone OS 17_2 like Mac OS X)", "-", "Googlebot/2.1 (+http://www.google.com/bot.html)"]

    def line():
        when = (f"{r.randrange(1, 29):02d}/{r.choice('Jan Feb Mar Apr May Nov'.split())}/2026:{r.randrange(24):02d}:"
                f"{r.randrange(60):02d}:{r.randrange(60):02d} +0{r.randrange(5)}00")
        page = f"GET /{r.choice('index img api v1/users static'.split())}/{r.randrange(9999)}?q={r.getrandbits(30):x} HTTP/1.1"
        request = r.choice([page, "POST /login HTTP/2.0", "HEAD / HTTP/1.0", "\\x16\\x03\\x01"])
        status, size = r.choice([200, 200, 200, 301, 404, 500]), r.choice([str(r.randrange(10 ** 6)), "-"])
        source = r.choice(["-", f"https://example.org/a/{r.randrange(999)}"])
        return (f'{r.choice(hosts)} - {r.choice(["-", "frank", "ada"])} [{when}] "{request}" {status} {size} "{source}" '
                f'"{r.choice(agents)}"\n')

    return repeated(line, SIZE)


def system_log():
    r = random.Random(78)

    def message():
        return r.choice([
            f"Failed password for invalid user admin from 192.168.{r.randrange(256)}.{r.randrange(256)} port {r.randrange(65536)} ssh2",
            f"connect from unknown[203.0.113.{r.randrange(256)}]",
            "(root) CMD (run-parts /etc/cron.hourly)",
            f"EXT4-fs (sda{r.randrange(9)}): mounted filesystem with ordered data mode",
            f"to=<user{r.randrange(99)}@example.com>, relay=none, delay={r.randrange(99)}.{r.randrange(9)}, status=deferred",
        ])

    def line():
        when = (f"{r.choice('Jan Feb Nov'.split())} {r.randrange(1, 29):2d} {r.randrange(24):02d}:{r.randrange(60):02d}:"
                f"{r.randrange(60):02d}")
        host = r.choice(["web01", "db-2", "mail.example.org"])
        program = r.choice(["sshd", "kernel", "postfix/smtpd", "CRON"]) + r.choice(["", f"[{r.randrange(30000)}]"])
        return f'{r.choice(["", f"<{r.randrange(190)}>"])}{when} {host} {program}: {r.choice(["", "[ERROR] ", "[INFO] "])}{message()}\n'

    return repeated(line, SIZE)


def sentences(r, words, size, blank, ends):
    """Sentences of random words, some with a number, a foreign word or a comma."""
    def sentence():
        count = r.randrange(4, 15)
        chosen = [r.choice(words) for _ in range(count)]
        if blank and r.random() < .8:
            chosen[0] = chosen[0].capitalize()
        if r.random() < .2:
            chosen.insert(r.randrange(count), str(r.randrange(1, 5000)))
        if r.random() < .1:
            chosen.insert(r.randrange(count), r.choice(["Linux", "UTF-8", "e-mail", "v2.1", "«цитата»", "COVID"]))
        if blank and r.random() < .3:
            chosen[r.randrange(len(chosen) - 1)] += ","
        return blank.join(chosen) + r.choice(ends)

    return repeated(sentence, size)


def russian():
    return sentences(random.Random(79), RUSSIAN, SIZE, " ", [". ", ".\n", "! ", "? ", "...\n"])


def greek():
    return sentences(random.Random(80), GREEK, SIZE, " ", [". ", ".\n", "· ", "; "])


def chinese():
    return sentences(random.Random(81), CHINESE, SIZE, "", ["。", "，", "！", "？\n", "。\n"])


def many_tongues():
    r = random.Random(4)

    def sentence():
        words = r.choice(MANY_TONGUES)
        chosen = [r.choice(words) for _ in range(r.randrange(4, 14))]
        if r.random() < .2:
            chosen.append(r.choice(["🙂", "€", "½", "№", "–"]))
        if r.random() < .15:
            chosen.append(str(r.randrange(1, 3000)))
        return " ".join(chosen) + r.choice([". ", "! ", "?\n", ".\n", "; "])

    return repeated(sentence, SIZE)


def mixed():
    """Parts of some hundred bytes: tongues, English, code, signs and blanks."""
    r = random.Random(82)
    texts = [english(), code()]
    spoken = [(RUSSIAN, 400, " ", ". "), (GREEK, 300, " ", ". "), (CHINESE, 300, "", "。"), (JAPANESE, 300, "", "。"),
              (KOREAN, 300, " ", ". "), (ARABIC, 300, " ", ". "), (HINDI, 300, " ", "। ")]

    def part():
        kind = r.randrange(len(spoken) + 3)
        if kind < len(spoken):
            words, size, blank, end = spoken[kind]
            return sentences(r, words, size, blank, [end, "\n"])
        if kind < len(spoken) + 2:
            text = texts[kind - len(spoken)]
            at = r.randrange(len(text) - 600)
            return text[at:at + 500]
        return r.choice(["🙂👍", "☃ ", "é", "I'm you're we'LL don't ", "   \n\n\t  ", "👩‍👩‍👧 🇫🇷 "])

    return repeated(part, 1024 * KIB)


def csv():
    r = random.Random(83)

    def field():
        kind = r.random()
        if kind < .4:
            return str(r.randrange(10 ** 6))
        if kind < .7:
            return r.choice(["abc", "Paris", "", "x y z", "2026-11-26"])
        return '"%s"' % r.choice(["a, b", 'say ""hi""', "plain", "one, two, three"])

    return repeated(lambda: ",".join(field() for _ in range(r.randrange(4, 9))) + "\n", SIZE)


def json_lines():
    r = random.Random(84)

    def value(depth):
        kind = r.random()
        if depth > 3 or kind < .25:
            return r.choice([r.randrange(10 ** 6), r.random() * 1e3, True, False, None, "word",
                             "a longer string with \"quotes\" and \\ and \n", "Ünïcödé 世界"])
        if kind < .5:
            return [value(depth + 1) for _ in range(r.randrange(5))]
        names = "id name value items list user_id created".split()
        return {r.choice(names): value(depth + 1) for _ in range(r.randrange(1, 6))}

    def line():
        return json.dumps(value(0), indent=r.choice([None, 2]), ensure_ascii=r.random() < .5) + "\n"

    return repeated(line, 256 * KIB)


def page():
    """Hypertext and Markdown, as a page with examples has them."""
    r = random.Random(85)
    words = "search engine pattern match group text table of the and to a in for with".split()

    def phrase():
        return " ".join(r.choice(words) for _ in range(r.randrange(2, 9)))

    def part():
        name = r.choice("b i em strong span code".split())
        return r.choice([
            f"<p class=\"note\">{phrase()} <{name}>{phrase()}</{name}>, {phrase()}.</p>\n",
            f"<a href=\"https://example.org/{r.randrange(999)}?q={r.choice(words)}\" id='x{r.randrange(99)}'>{phrase()}</a>\n",
            f"<!-- {phrase()} -->\n<img src='/img/{r.randrange(99)}.png' alt=\"{phrase()}\"/>\n",
            f"## {phrase().capitalize()}\n\n- {phrase()} [{phrase()}](https://example.org/{r.randrange(999)}) **{phrase()}**\n",
            f"```\nlet x = {r.randrange(99)};\n```\n",
            f"Write to {r.choice(words)}@example.org or call +49 {r.randrange(10, 99)} {r.randrange(10 ** 6)}: `{phrase()}`\n",
        ])

    return repeated(part, 256 * KIB)


def terminal():
    """What a build prints in colours, with identifiers and times."""
    r = random.Random(86)

    def identifier():
        return "%08x-%04x-%04x-%04x-%012x" % tuple(r.getrandbits(bits) for bits in (32, 16, 16, 16, 48))

    def line():
        colour = r.choice(["31", "32", "1;33", "38;5;208"])
        return r.choice([
            f"\x1b[{colour}mCompiling\x1b[0m crate_{r.randrange(99)} v{r.randrange(9)}.{r.randrange(20)}.{r.randrange(9)}\n",
            f"\x1b[{colour}mwarning\x1b[0m: unused variable `value{r.randrange(99)}` at src/main.rs:{r.randrange(900)}:{r.randrange(80)}\n",
            f"  job {identifier()} took {r.randrange(90)}.{r.randrange(10)} s, trace={identifier()}\n",
            f"Exception in thread \"main\" java.lang.IllegalStateException: step {r.randrange(99)}\n"
            + "".join(f"\tat org.example.Service{k}.run(Service{k}.java:{r.randrange(900)})\n" for k in range(r.randrange(1, 5))),
        ])

    return repeated(line, 256 * KIB)


def short_lines(count):
    r = random.Random(87)
    words = "alpha beta user=ada id=42 10.1.2.3 foo@bar.org 2026-11-26 error: ok GET / x y".split()
    return "\n".join(" ".join(r.choice(words) for _ in range(6))[:20].ljust(20, ".") for _ in range(count))


def letter(size):
    """A text whose first line has what is looked for."""
    return cut("It was on March 12 that Ada Lovelace wrote.\n" + english(), size)


def entries(count):
    """What people type into forms: one entry a line, right or not."""
    r = random.Random(88)
    letters = string.ascii_letters + string.digits

    def word(least, most):
        return "".join(r.choice(letters) for _ in range(r.randrange(least, most)))

    def entry():
        return r.choice([
            f"{word(3, 9)}@{word(3, 8)}.org", f"{r.randrange(300)}.{r.randrange(300)}.{r.randrange(300)}.{r.randrange(300)}",
            f"v{r.randrange(9)}.{r.randrange(20)}.{r.randrange(9)}-rc.{r.randrange(9)}", f"{word(6, 12)}!{r.randrange(99)}",
            f"#{r.getrandbits(24):06x}", f"{r.randrange(30):02d}:{r.randrange(70):02d}", f"{word(4, 10)} {word(4, 10)}",
        ])

    return "\n".join(entry() for _ in range(count))


MAKERS = {
    "c.txt": lambda: joined(files_of("libc6-dev", lambda path: path.endswith(".h")), ascii_only=True),
    "rust.txt": lambda: joined(crates()),
    "tokens.txt": lambda: joined(files_of("librust-regex-dev", lambda path: path.endswith("/src/exec.rs")), 48 * KIB),
    "licences.txt": lambda: joined(files_of("base-files", lambda path: "/common-licenses/" in path), ascii_only=True),
    "log.txt": log,
    "utf8.txt": many_tongues,
    "english1m.txt": english,
    "code1m.txt": code,
    "csrc.txt": lambda: joined(headers(), 256 * KIB, ascii_only=True),
    "pysrc.txt": lambda: joined(sorted(glob.glob("/usr/lib/python3*/*.py")), 256 * KIB),
    "ru.txt": russian,
    "el.txt": greek,
    "zh.txt": chinese,
    "mixed1m.txt": mixed,
    "access.txt": access_log,
    "syslog.txt": system_log,
    "data.csv": csv,
    "data.json": json_lines,
    "page.txt": page,
    "terminal.txt": terminal,
    "lines20.txt": lambda: short_lines(100000),
    "lines20f.txt": lambda: short_lines(3000),
    "lines20t.txt": lambda: short_lines(300),
    "entries.txt": lambda: entries(20000),
    "letter.txt": lambda: letter(4 * KIB),
    "letter2000.txt": lambda: letter(2000),
    "ab28.txt": lambda: "ab" * 28 + "ac",
    "ab4000.txt": lambda: "ab" * 4000 + "ac",
    "a28.txt": lambda: "a" * 28 + "!",
    "a5000.txt": lambda: "a" * 5000 + "!",
    "a25.txt": lambda: "a" * 25,
    "spaces.txt": lambda: "x" + " " * 20000 + "x",
    "equals.txt": lambda: "x=" + "x" * 500,
}


def cut(text, size):
    """The text's beginning of so many bytes or somewhat fewer, and again and again where it is shorter."""
    data = text.encode()
    return (data * (size // len(data) + 1))[:size].decode("utf-8", "ignore")


# The beginnings of some of them, of so many bytes.
MAKERS |= {
    f"{name}-{size}.txt": lambda whole=whole, size=size: cut(MAKERS[whole](), size)
    for size in (1000, 4000)
    for name, whole in [("log", "log.txt"), ("pysrc", "pysrc.txt"), ("english", "english1m.txt"), ("data", "data.csv"), ("ru", "ru.txt")]
}


# Texts of any size, whose searches are to show how time grows.
GROWING = {
    "a": lambda size: "a" * size,
    "a-at": lambda size: "a" * (size - 1) + "@",
    "ab": lambda size: cut("ab", size),
    "ba": lambda size: "b" + "a" * (size - 1),
    "blanks-x": lambda size: " " * (size - 1) + "x",
    "commas": lambda size: "," * size,
    "lines": lambda size: "\n" * size,
    "digits": lambda size: cut("1234567890", size),
    "prose": lambda size: cut(english(), size),
    "ab-cd": lambda size: cut("ab ab cd ", size),
    "x-aa-y": lambda size: "x" + cut("aa y ", size - 1),
    "openings": lambda size: cut("/*", size),
    "apostrophes": lambda size: cut("' ", size - 1) + '"',
}


def write(path, text):
    """Writes a text, whole or not at all."""
    with open(path + ".part", "w", encoding="utf-8", newline="") as file:
        file.write(text)
    os.replace(path + ".part", path)


def make(folder, names):
    """Makes the haystacks of these names that the folder has not yet."""
    os.makedirs(folder, exist_ok=True)
    for name in names:
        path = f"{folder}/{name}"
        if not os.path.exists(path):
            write(path, MAKERS[name]())
