"""A Bazel workspace of a library and its clients, whose toolchain has an interface library builder of its own.

The toolchain is gcc with the feature `supports_interface_shared_libraries`. The builder is `build_interface_so` of Bazel's
own tools, so these are copied, with another file there. Nothing is downloaded: the repositories that Bazel asks for are
those of Debian's packages bazel-bootstrap, bazel-platforms, bazel-rules-java and bazel-rules-proto.
"""
import shutil
from pathlib import Path

SHARE = Path("/usr/share/bazel")
TOOLS = SHARE / "embedded_tools"
REPOSITORIES = {"rules_java": SHARE / "rules/java", "rules_proto": SHARE / "rules/proto", "platforms": SHARE / "platforms"}
BUILDER = """#!/bin/sh
exec %s stub --write-if-changed --output-elf="$2" "$1"
"""
RULES = ["cc_binary", "cc_import", "cc_library", "cc_proto_library", "cc_test", "cc_toolchain", "cc_toolchain_suite",
         "fdo_prefetch_hints", "fdo_profile", "objc_import", "objc_library"]
LIBRARY = 'cc_library(name = "x", srcs = ["libx.c"])\n'
CLIENT = 'cc_binary(name = "{0}", srcs = ["{0}.c"], deps = [":x"], linkstatic = False)\n'
TOOLCHAIN = """load(":config.bzl", "config")
filegroup(name = "none")
config(name = "gcc_config")
cc_toolchain(
    name = "gcc",
    all_files = ":none",
    ar_files = ":none",
    as_files = ":none",
    compiler_files = ":none",
    dwp_files = ":none",
    linker_files = "@bazel_tools//tools/cpp:link_dynamic_library",
    objcopy_files = ":none",
    strip_files = ":none",
    supports_param_files = 1,
    toolchain_config = ":gcc_config",
)
cc_toolchain_suite(name = "suite", toolchains = {"k8": ":gcc"})
"""
CONFIG = """load("@bazel_tools//tools/cpp:cc_toolchain_config_lib.bzl", "feature", "tool_path")

def _config(ctx):
    tools = ["ar", "cpp", "gcc", "gcov", "ld", "nm", "objdump", "strip"]
    features = ["supports_interface_shared_libraries", "supports_dynamic_linker", "supports_pic"]
    return cc_common.create_cc_toolchain_config_info(
        ctx = ctx,
        toolchain_identifier = "gcc",
        host_system_name = "local",
        target_system_name = "local",
        target_cpu = "k8",
        target_libc = "glibc",
        compiler = "gcc",
        abi_version = "local",
        abi_libc_version = "local",
        tool_paths = [tool_path(name = tool, path = "/usr/bin/" + tool) for tool in tools],
        cxx_builtin_include_directories = ["/usr/include", "/usr/lib/gcc"],
        features = [feature(name = name, enabled = True) for name in features],
    )

config = rule(implementation = _config, attrs = {}, provides = [CcToolchainConfigInfo])
"""
OPTIONS = ["--crosstool_top=//toolchain:suite", "--cpu=k8", "--host_crosstool_top=//toolchain:suite", "--host_cpu=k8",
           "--spawn_strategy=local", "--noshow_progress"]


def is_there():
    """Bazel, with the repositories that it asks for."""
    return bool(shutil.which("bazel")) and all(path.is_dir() for path in (TOOLS, *REPOSITORIES.values()))


def put(path, text):
    path.parent.mkdir(parents=True, exist_ok=True)
    path.write_text(text)


def write(folder, program, clients):
    """Writes the workspace and the copied tools; the folder of the workspace is `work`."""
    work, rules = folder / "work", folder / "rules_cc"
    put(work / "WORKSPACE", "")
    put(work / "BUILD", LIBRARY + "".join(CLIENT.format(name) for name in clients))
    put(work / "toolchain/BUILD", TOOLCHAIN)
    put(work / "toolchain/config.bzl", CONFIG)
    for name in ("WORKSPACE", "BUILD", "cc/BUILD"):
        put(rules / name, "")
    put(rules / "cc/defs.bzl", "".join(f"{rule} = native.{rule}\n" for rule in RULES))
    shutil.copytree(TOOLS, folder / "bazel_tools")
    put(folder / "bazel_tools/tools/cpp/build_interface_so", BUILDER % program)
    return work


def command(folder, verb, *words):
    """Bazel's words in such a workspace."""
    given = {"bazel_tools": folder / "bazel_tools", "rules_cc": folder / "rules_cc", **REPOSITORIES}
    options = [f"--override_repository={name}={path}" for name, path in given.items()]
    return ["bazel", f"--output_user_root={folder / 'output'}", verb, *([*options, *OPTIONS] if words else []), *words]
