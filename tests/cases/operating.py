"""The commands of docs/OPERATING.md, typed on a machine of their own: from a bare machine to two vaults behind nginx, with
sweeps, purges, a probe and a backup that is put back."""
import datetime
import re

from deploy import ABSENCES, DEPLOY, FIRST, SECOND, SWEPT, UNPROVED
from lib import EXPLAINED, TOP, Room, case, number_of, packed, part_name, statement
from machine import TOOLS, Machine, machine

PAGE = (TOP / "docs/OPERATING.md").read_text()
VAULT, COPIES, AUDITS = "/var/lib/escrow/archive", "/mnt/archive-*", "/var/lib/escrow-audit/archive"
PROBE = f"/usr/local/lib/escrow/check-health --port 8080 --audit {AUDITS}"
URL = "https://127.0.0.1"
TODAY = str(datetime.datetime.now(datetime.timezone.utc).date())


def shell(title: str) -> str:
    """The first block of a section of the page that is for a shell."""
    section = re.split(r"^##+ ", PAGE.split(f"# {title}\n")[1], flags=re.MULTILINE)[0]
    return re.search(r"^```sh\n(.*?)^```$", section, re.DOTALL | re.MULTILINE)[1]


def types(on: Machine, title: str, *replaced: tuple[str, str]) -> list[str]:
    """Runs that block as root, with other words in some places, and gives the lines of its answer."""
    block = shell(title)
    for old, new in replaced:
        on.true(old in block, f"{title} has no {old}")
        block = block.replace(old, new)
    return on.run(f"set -e\n{block}").lines()


def as_caller(name: str, words: str) -> str:
    """The words of a request by a caller."""
    return f"curl -s --cacert /etc/escrow/server.pem --cert /etc/escrow/{name}.pem --key /etc/escrow/{name}.key {words}"


def serves(on: Machine, name: str, port: int, number: str) -> None:
    """Sets up the service of a vault."""
    lines = types(on, "A service: systemd", ("262144", "300"), ("archive", name), ("8080", str(port)),
                  ("00000000000000a1", number), (f"{port} > ", f"{port} >> "),
                  ("echo PORT", f"echo {UNPROVED} > /etc/escrow/{name}.env; echo PORT"))
    on.equal(f"ready 300 {number}", lines[0], name)
    health = [line for line in lines if line.startswith("ESCROW")]
    on.equal(["ESCROW OK - free 299 of 299 blocks; no day is due for more than an hour|free=299;30:;;0;299 due=0;0;;0"],
             health, f"the health of {name}")
    on.plays(f"""
        $ systemctl is-enabled escrow@{name} escrow-sweep@{name}.timer escrow-purge@{name}.timer | uniq -> enabled
        $ test $(du -k /var/lib/escrow/{name}/vault.vol | cut -f 1) -ge 1200
        $ stat -c %a /var/lib/escrow/{name}/* | uniq -> 600""")


def opens_gateway(on: Machine) -> None:
    """Makes the certificates, and sets up the gateway with the second vault, to which the domain `other` belongs."""
    made = on.run(f"""set -e; cd /etc/escrow
        {shell("A gateway: nginx")}
        for name in OPERATOR other; do
            openssl req -x509 -newkey ec -pkeyopt ec_paramgen_curve:prime256v1 -nodes -days 2 -subj /CN=$name \\
                -CA callers.pem -CAkey authority.key -keyout $name.key -out $name.pem
        done
        openssl req -x509 -newkey ec -pkeyopt ec_paramgen_curve:prime256v1 -nodes -days 2 -subj /CN=server \\
            -addext subjectAltName=IP:127.0.0.1 -keyout server.key -out server.pem
        sed -E 's,# (/vaults/second|other) ,\\1 ,' /usr/local/share/escrow/nginx.conf > /etc/nginx/conf.d/escrow.conf
        systemctl start nginx""")
    on.equal(0, made.status, f"the gateway: {made.err.decode()}")


def takes_deposits(on: Machine) -> None:
    """The operator registers two registries, which send parts, and states one deposit: all through the gateway."""
    first = f"""-X PUT -d '{{"first":"{FIRST}"}}'"""
    for name, path, days in (("example", "", (FIRST, SECOND)), ("other", "/vaults/second", (TODAY,))):
        on.plays(f"$ {as_caller('OPERATOR', f'{first} {URL}{path}/registries/{name}')} -> registered {name} {FIRST}")
        for day in days:
            part = part_name(day, tld=name)
            put = as_caller(name, f"-T {on.folder}/{day} {URL}/deposits/{part}")
            on.plays(f"$ {put} | cut -d ' ' -f -2 -> received {part}")
    on.equal(f"       1 RECEIPT    {FIRST} R00 {number_of(FIRST)}", states(on, FIRST), "a deposit that passes")
    on.plays(f"$ {as_caller('other', f'{URL}/notices/example')} | grep -c '403 Forbidden' -> 2")


def states(on: Machine, day: str) -> str:
    """States a deposit of `example`, and gives the beginning of its notice."""
    return on.run(as_caller("OPERATOR", f"-d '{statement(day, number_of(day))}' {URL}/statements")).out.decode()[:46]


def watches(on: Machine) -> None:
    """The sweeps and purges of the units do their work. The probe is red while a service is stopped."""
    on.plays("$ systemctl start escrow-sweep@second escrow-purge@second")
    on.comes(SWEPT, *(line.replace("example", "other") for line in ABSENCES))
    on.comes("journalctl -qo cat -t curl", "dropped 0")
    on.plays("$ systemctl start escrow-sweep@archive 2> said -> !1")
    on.comes(f"{SWEPT} | tail -n 1", f"sweep: example {SECOND}: parts came, and no statement: no absence is recorded")
    on.equal(f"       2 FAILURE-01 {SECOND} R00 {number_of(SECOND)}", states(on, SECOND), "a deposit that fails")
    on.plays(f"""
        $ {as_caller("example", f"{URL}/reasons/example/{SECOND}/0")} -> {EXPLAINED}
        $ systemctl start escrow-sweep@archive
        $ {PROBE} | cut -d ';' -f 1 -> ESCROW WARNING - no audit: {AUDITS} is missing
        !1
        $ systemctl stop escrow@archive; {PROBE} | cut -d ' ' -f 2-6 -> CRITICAL - the service on
        !2
        $ systemctl start escrow@archive""")


def backs_up(on: Machine) -> None:
    """A backup is put back after the vault was damaged: the probe is green, red and green again."""
    state = "curl -s http://127.0.0.1:8080/state"
    on.plays(f"$ {state} > state; wc -l < state -> 6")
    for damage, health in (("", "ESCROW OK"), (DAMAGE, "ESCROW CRITICAL\n!2"), (RESTORE, "ESCROW OK")):
        on.run(f"sleep 1; {damage}")
        [line] = types(on, "Backup")[:1]
        sound = re.fullmatch(r"backup /mnt/archive-\d{8}T\d{6}Z: sound 2", line)
        on.true(bool(sound) == (damage != DAMAGE), f"the backup: {line}")
        on.plays(f"$ {PROBE} | cut -d ' ' -f -2 -> {health}\n$ {state} | cmp - state")
    on.plays(f"""
        $ mkdir snapshot; mount --bind $(ls -d {COPIES} | head -n 1) snapshot; mount -o remount,bind,ro snapshot
        $ escrow audit snapshot -> sound 2
        $ escrow state snapshot | cmp - state
        $ escrow purge snapshot -> !3 file failed: snapshot/vault.vol: Read-only file system (os error 30)""")


# A byte of the first part is changed; the first backup is put back.
DAMAGE = f"""systemctl stop escrow@archive; printf x | dd of={VAULT}/vault.vol bs=4096 seek=1 conv=notrunc status=none
systemctl start escrow@archive"""
RESTORE = f"""systemctl stop escrow@archive; mv {VAULT} broken; cp -a $(ls -d {COPIES} | head -n 1) {VAULT}
systemctl start escrow@archive"""


@case(f"{TOOLS} curl fallocate nginx openssl", seconds=20)
def the_page_leads_from_a_bare_machine_to_two_vaults_behind_a_gateway(room: Room) -> None:
    for day, content in {FIRST: packed("full", FIRST), SECOND: "hello", TODAY: "hello"}.items():
        room.file(day, content)
    with machine(room) as on:
        installed = types(on, "Install", ("deploy/install", f"{DEPLOY}/install --program {room.program} 2> said"))
        on.true("/usr/local/bin/escrow" in installed, "the program is not installed")
        serves(on, "archive", 8080, "00000000000000a1")
        serves(on, "second", 8081, "00000000000000a2")
        opens_gateway(on)
        takes_deposits(on)
        watches(on)
        backs_up(on)
