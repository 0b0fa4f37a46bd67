"""A folder for Traffic Server, which has a layout of its own."""
import shutil
import subprocess
from pathlib import Path

RECORDS = """
CONFIG proxy.config.http.server_ports STRING @PORT@:ip-in=127.0.0.1
CONFIG proxy.config.admin.user_id STRING nobody
CONFIG proxy.config.http.insert_age_in_response INT 1
CONFIG proxy.config.log.logging_enabled INT 0
CONFIG proxy.config.diags.debug.enabled INT 0
CONFIG proxy.config.url_remap.remap_required INT 1
CONFIG proxy.config.reverse_proxy.enabled INT 1
CONFIG proxy.config.exec_thread.autoconfig.enabled INT 0
CONFIG proxy.config.exec_thread.limit INT 2
CONFIG proxy.config.http.connect_attempts_max_retries INT 0
CONFIG proxy.config.http.parent_proxy.self_detect INT 0
"""
ALLOW = """ip_allow:
  - apply: in
    ip_addrs: 127.0.0.1
    action: allow
    methods: ALL
  - apply: out
    ip_addrs: 0/0
    action: allow
    methods: ALL
"""
LAYOUT = """prefix: @ROOT@
exec_prefix: /usr
bindir: /usr/bin
sbindir: /usr/sbin
sysconfdir: @ROOT@/etc
datadir: @ROOT@/share
includedir: /usr/include
libdir: /usr/lib/trafficserver
libexecdir: /usr/lib/trafficserver/modules
localstatedir: @ROOT@/run
runtimedir: @ROOT@/run
logdir: @ROOT@/log
cachedir: @ROOT@/cache
"""


def prepare(work: Path, port: int, origin: int) -> dict[str, str]:
    """Makes the folder, and gives the environment by which the server finds it."""
    root = work / "trafficserver"
    for name in ("etc", "run", "log", "cache", "share"):
        (root / name).mkdir(parents=True)
    shutil.copytree("/etc/trafficserver", root / "etc", dirs_exist_ok=True)
    (root / "etc/records.config").write_text(RECORDS.replace("@PORT@", str(port)))
    (root / "etc/remap.config").write_text(f"map / http://127.0.0.1:{origin}/\n")
    (root / "etc/storage.config").write_text(f"{root}/cache 64M\n")
    (root / "etc/ip_allow.yaml").write_text(ALLOW)
    # (it gives up the rights of root)
    subprocess.run(["chmod", "-R", "777", root], check=True)
    (root / "runroot.yaml").write_text(LAYOUT.replace("@ROOT@", str(root)))
    return {"TS_RUNROOT": str(root / "runroot.yaml")}
