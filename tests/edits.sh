#!/usr/bin/env bash
# What operators make (tests/edits.py), and how it is laid out in runs (tests/trying.py). Then, over what `.ci/run` has proved before, as its log in out/proofs tells: a kept bug
# of each crate that carries what the product promises must be refused by the function that it changes; so must premises of one crate of the theory of calls, drawn by the last
# commit, within two minutes of a processor; and of a sample of what operators make, edits of each crate that changed in the day before that commit, within four minutes, those of
# crates whose edits were all tried once (tools/planted). Without such a log no bug is asked, and the sample proves what it needs.
top="$(dirname "$0")/.."
bugs=(osdp_frame/bad_check_is_a_packet osdp_reader/acts_again_on_a_repeat osdp_controller/poll_in_place_of_the_waiting_command osdp_bus/comsets_to_one_address)
python3 "$top/tests/edits.py" || exit 1
python3 "$top/tests/trying.py" || exit 1
proved=()
if [ -s "$top/out/proofs" ]; then
  proved=(--proved "$top/out/proofs")
  python3 "$top/tools/planted" --asked "${bugs[@]}" "${proved[@]}" || exit 1
fi
python3 "$top/tools/planted" --premises --most 8 --seed "$(git -C "$top" rev-parse HEAD)" --minutes 2 "${proved[@]}" || exit 1
exec python3 "$top/tools/planted" --sample --minutes 4 "${proved[@]}"
