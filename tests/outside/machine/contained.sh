# shellcheck shell=sh
# The same set and the same steps as in `set`, under the first process of a container.
# set.sh reads it.
# shellcheck disable=SC2034
kind=container
# shellcheck source=set.sh
. "$tests/machine/set.sh"
