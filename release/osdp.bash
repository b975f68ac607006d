# Completion of osdp, osdp-port and osdp-report for bash. The words are those of their helps; tests/release.py holds them to these.

_osdp_words() {
  case $1 in
    '') echo 'show monitor check make sim panel reader plan test help --help --version -h' ;;
    show) echo '--raw --osdpcap --xxd --stamped --hex --join --times --no-polls --address' ;;
    monitor) echo '--raw --osdpcap --xxd --stamped --hex --packets --talk --standard --recorded --times --clock --json --gap --every' ;;
    check) echo '--raw --osdpcap --xxd --stamped --hex --join' ;;
    make) echo 'sum crc' ;;
    panel) echo 'check reply-wait poll-interval sends busy-wait busy-limit quiet-wait gap capacity' ;;
    reader) echo 'address vendor model version serial firmware cap room gap expire presence' ;;
    plan) echo 'readers rate check longest answer hold late orders reply-wait poll-interval sends busy-wait busy-limit quiet-wait' ;;
    test) echo '--tap panel script' ;;
    help) echo 'show monitor check make sim panel reader plan test' ;;
  esac
}

_osdp() {
  local word=${COMP_WORDS[COMP_CWORD]} command=${COMP_WORDS[1]}
  [ "$COMP_CWORD" -gt 1 ] || command=
  COMPREPLY=($(compgen -W "$(_osdp_words "$command")" -- "$word"))
  case $command in show | monitor | check) COMPREPLY+=($(compgen -f -- "$word")) ;; esac
}

_osdp_port() {
  local word=${COMP_WORDS[COMP_CWORD]} before=${COMP_WORDS[COMP_CWORD - 1]} command= each
  for each in "${COMP_WORDS[@]:1:COMP_CWORD - 1}"; do
    case $each in monitor | show | panel | reader | find | test | trace | page | serve) command=${command:-$each} ;; esac
  done
  case $before in
    --keep | --config | --metrics | --trace | --osdp) COMPREPLY=($(compgen -f -- "$word")); return ;;
    --address | --every | --until | --late | --size | --may | --set-address | --set-rate | --listen | --alone) COMPREPLY=(); return ;;
  esac
  if [[ $word == -* ]]; then
    case $command in
      '') each='--all --address --every --live --json --keep --new --config --metrics --check --until --late --trace --size --osdpcap --may --go-on --sum --tap --set-address --set-rate --demo --listen --alone --plain --osdp --help --version' ;;
      monitor) each='--all --address --every --live --json --plain --osdp' ;;
      show) each='--all --address --plain --osdp' ;;
      panel) each='--all --keep --new --until --trace --size --osdpcap --plain --osdp' ;;
      reader) each='--all --keep --new --late --trace --size --osdpcap --plain --osdp' ;;
      find) each='--set-address --set-rate --plain --osdp' ;;
      test) each='--trace --may --go-on --sum --tap --plain --osdp' ;;
      trace) each='--size --osdpcap --plain --osdp' ;;
      page) each='--trace --demo --listen --alone --plain --osdp' ;;
      serve) each='--new --config --metrics --check --plain --osdp' ;;
    esac
    COMPREPLY=($(compgen -W "$each" -- "$word"))
  elif [[ $before == test ]]; then
    COMPREPLY=($(compgen -W 'device panel script' -- "$word"))
  elif [[ $command == trace || $before == script ]]; then
    COMPREPLY=($(compgen -f -- "$word"))
  elif [[ $before == /dev/* || $before == *://* ]]; then
    COMPREPLY=($(compgen -W '9600 19200 38400 57600 115200 230400' -- "$word"))
  elif [[ $command == '' && ( $before =~ ^[0-9]+$ || $before == help ) ]]; then
    COMPREPLY=($(compgen -W 'monitor show panel reader find test trace page serve' -- "$word"))
  elif [[ $command == '' ]]; then
    each=$(compgen -G '/dev/ttyUSB*'; compgen -G '/dev/ttyACM*'; compgen -G '/dev/serial/by-id/*')
    COMPREPLY=($(compgen -W "$each" -- "$word"))
  else
    COMPREPLY=()
  fi
}

_osdp_report() {
  local word=${COMP_WORDS[COMP_CWORD]}
  COMPREPLY=($(compgen -f -- "$word"))
  [[ $word != -* ]] || COMPREPLY=($(compgen -W '--hex --osdpcap --stamped --raw --rate --json --osdp' -- "$word"))
}

complete -o filenames -F _osdp osdp
complete -o filenames -F _osdp_port osdp-port
complete -o filenames -F _osdp_report osdp-report
