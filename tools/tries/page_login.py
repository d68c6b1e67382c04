"""page.py with users: nothing but the form without a session, names in the log, wrong passwords that are too many, and
files of users that are none.
"""
import base64
import json
import os
import subprocess
import sys

from tries.paged import Page
from tries.running import ME, TOOLS, refused, see

SECRET, OTHER = "rot Grün 7", "a second word"
BAD_FILES = (
    ("anna\n", 2, ":1: this is no line of tools/page_user.py"),
    ("anna:scrypt:16384:8:1:00:00\n", 2, ":1: this is no line"),
    (f"anna:scrypt:16385:8:1:{'0' * 32}:{'0' * 64}\n", 2, ":1: this is no line"),
    (f"anna:scrypt:1024:8:1:{'0' * 32}:{'0' * 64}\n" * 2, 2, ":2: anna stands twice"),
    ("# nobody\n", 2, "has no user: `python3 tools/page_user.py"),
)


def user(file, name, password, *more, status=0):
    it = subprocess.run(
        [sys.executable, os.path.join(TOOLS, "page_user.py"), file, name, *more],
        input=password + "\n",
        capture_output=True,
        text=True,
        timeout=60,
    )
    see(it.returncode == status and "Traceback" not in it.stderr, f"page_user.py {name}: {it.stdout}{it.stderr}")
    return it.stdout + it.stderr


def login(page, name, password, **headers):
    body = json.dumps({"name": name, "password": password})
    return page.ask("/login", "POST", body, **{"Content_Type": "application/json", **headers})


def cookie_of(page, name, password):
    status, headers, said = login(page, name, password)
    see(status == 200, f"the login of {name}: {status} {said}")
    own = headers["Set-Cookie"]
    see("HttpOnly; SameSite=Strict" in own and "Path=/" in own, f"the cookie: {own}")
    return own.split(";")[0]


def token_of(page, cookie):
    return page.ask("/", Cookie=cookie)[2].decode().split('name="token" content="')[1].split('"')[0]


def is_shut(page):
    """Nothing is answered without a session but the form and whether the server answers."""
    status, _, said = page.ask("/")
    see(status == 401 and b'type="password"' in said and b'name="token"' not in said, f"the form: {status}")
    for path in ("/values.json", "/history.json?name=Main.count", "/metrics", "/events", "/nothing"):
        status, _, said = page.ask(path)
        see(status == 401 and b"log in first" in said, f"{path} without a session: {status} {said[:80]}")
    see(page.ask("/login.js")[0] == page.ask("/page.css")[0] == page.ask("/healthz")[0] == 200, "files of the form")
    see(page.write("Main.count", "20", "x")[0] == 401, "a write without a session")
    for body, kind, wanted in (
        ("{}", "application/json", 400),
        ("[]", "application/json", 400),
        ("{", "application/json", 400),
        ('{"name": 1, "password": []}', "application/json", 400),
        ("name=anna", "application/x-www-form-urlencoded", 415),
    ):
        see(page.ask("/login", "POST", body, Content_Type=kind)[0] == wanted, f"a login of {body}")
    see(page.ask("/login")[0] == 405, "a login by GET")
    see(login(page, "anna", SECRET, Origin="http://evil.example")[0] == 403, "a login of another page")


def who_wrote(page):
    anna, bert = cookie_of(page, "anna", SECRET), cookie_of(page, "Bert Öhm", OTHER)
    for own, value in ((anna, "20"), (bert, "21")):
        status, why = page.write("Main.count", value, token_of(page, own), Cookie=own)
        see(status == 200, f"a write of a user: {status} {why}")
    see(page.write("Main.count", "22", token_of(page, anna))[0] == 401, "the token alone writes")
    with page.stream(anna) as stream:
        see([it["by"] for it in stream.next("log")] == ["Bert Öhm", "anna"], "who wrote what")
    basic = "Basic " + base64.b64encode(f"anna:{SECRET}".encode()).decode()
    see(page.ask("/values.json", Authorization=basic)[0] == 200, "a program with a name and a password")
    return anna, bert


def ends(page, file, anna, bert):
    """A session ends by its user, and by the file."""
    given = {"Content_Type": "application/json", "X_Token": token_of(page, anna), "Cookie": anna}
    see(page.ask("/logout", "POST", "{}", **given)[0] == 200 and page.ask("/", Cookie=anna)[0] == 401, "a logout")
    see(page.ask("/values.json", Cookie=bert)[0] == 200, "the session of another")
    see("is removed" in user(file, "Bert Öhm", "", "--remove"), "a user is removed")
    see(page.ask("/values.json", Cookie=bert)[0] == 401, "the session of a user that is removed")
    see(login(page, "Bert Öhm", OTHER)[0] == 403, "the login of a user that is removed")


def wrong_ones(page):
    """Five wrong passwords in a minute, and then none is looked at, not the right one either."""
    answers = [login(page, name, "wrong word")[0] for name in ("anna", "nobody", "anna", "anna")]
    see(answers == [403] * 4, f"wrong passwords: {answers}")
    status, _, said = login(page, "anna", SECRET)
    is_told = b"too many wrong passwords from 127.0.0.1: try again in" in said
    see(status == 429 and is_told, f"a sixth one: {status} {said}")
    basic = "Basic " + base64.b64encode(f"anna:{SECRET} ".encode()).decode()
    see(page.ask("/values.json", Authorization=basic)[0] == 429, "a sixth one of a program")


def bad_files(folder, plant):
    file, to = os.path.join(folder, "bad.users"), ("--to", "127.0.0.1:1", "--me", ME)
    for text, status, part in BAD_FILES:
        with open(file, "w", encoding="utf-8") as it:
            it.write(text)
        os.chmod(file, 0o640)
        refused(status, part, "page.py", plant, *to, "--users", file)
    os.chmod(file, 0o644)
    refused(4, "everyone may read it: chmod o=", "page.py", plant, *to, "--users", file)
    refused(4, "No such file", "page.py", plant, *to, "--users", file + ".none")
    refused(1, "give one of them", "page.py", plant, *to, "--users", file, "--proxy", "::1")
    see("8 to 200 letters" in user(file + ".new", "anna", "short", status=1), "a short password")
    see("without a colon" in user(file + ".new", "an:na", SECRET, status=1), "a name with a colon")
    see("has no anna" in user(file + ".new", "anna", "", "--remove", status=1), "nobody to remove")


def logged_in(folder, plant, server):
    file = os.path.join(folder, "page.users")
    for name, password in (("anna", "another word"), ("Bert Öhm", OTHER), ("anna", SECRET)):
        user(file, name, password)
    with open(file, encoding="utf-8") as it:
        see(len(it.readlines()) == 2 and os.stat(file).st_mode & 0o777 == 0o640, "the file of users")
    with Page(plant, server.to, "--write", "Main.count", "--users", file) as page:
        page.until(page.is_well, "the server")
        is_shut(page)
        ends(page, file, *who_wrote(page))
        wrong_ones(page)
    bad_files(folder, plant)
