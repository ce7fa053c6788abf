# shellcheck shell=sh
# What the scripts read: the settings, and all functions. `here` is this directory.
# shellcheck source=settings
. "$here/settings"
# shellcheck source=s6.sh
. "$here/$UNDORC_SUPERVISOR.sh"
# shellcheck source=copies.sh
. "$here/copies.sh"
# shellcheck source=updates.sh
. "$here/updates.sh"
# shellcheck source=recovery.sh
. "$here/recovery.sh"
