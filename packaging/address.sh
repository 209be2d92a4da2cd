# Sourced by `ready` and `taken`. address_of OPTION ..: sets `at` to where a client of this machine finds a server with these
# options of `serve`: the host and the port of the first `--listen` of TCP, or else the first path, as unix:PATH. It is empty
# where port 0 is the only address: that is any port.
address_of() {
  local host='' port='' path='' word
  while [ $# -gt 0 ]; do
    word=
    case $1 in
      --listen) word=${2:-} ;;
      --listen=*) word=${1#*=} ;;
    esac
    case $word in
      unix:*) path=${path:-$word} ;;
      '' | *:0) ;;
      *) [ -n "$port" ] || host=${word%:*} port=${word##*:} ;;
    esac
    shift
  done
  host=${host#[}
  host=${host%]}
  # (a server of all addresses is asked by this machine's own)
  case $host in
    0.0.0.0) host=127.0.0.1 ;;
    ::) host=::1 ;;
  esac
  at=()
  if [ -n "$port" ]; then
    at=("$host" "$port")
  elif [ -n "$path" ]; then
    at=("$path")
  fi
}
