# Kerberos keeps its tickets in a session, by the libraries that Debian has: for tests/clients.
# shellcheck shell=bash disable=SC2016,SC2086,SC2154 # an option that may be empty is no word

realm=KEYRETAIN.TEST

# make_realm PORT: a realm of its own in $dir/realm, with alice and her keys in a file
make_realm() {
  local at=$dir/realm
  rm -rf "$at" && mkdir "$at" || return 1
  cat >"$at/krb5.conf" <<END_OF_FILE
[libdefaults]
default_realm = $realm
dns_lookup_kdc = false
[realms]
$realm = {
  kdc = 127.0.0.1:$1
}
END_OF_FILE
  cat >"$at/kdc.conf" <<END_OF_FILE
[kdcdefaults]
kdc_listen = 127.0.0.1:$1
kdc_tcp_listen = 127.0.0.1:$1
[realms]
$realm = {
  database_name = $at/principals
  key_stash_file = $at/stash
  acl_file = $at/acl
}
END_OF_FILE
  export KRB5_CONFIG=$at/krb5.conf KRB5_KDC_PROFILE=$at/kdc.conf
  {
    kdb5_util create -s -P master -r "$realm"
    kadmin.local -q 'addprinc -randkey alice'
    kadmin.local -q "ktadd -k $at/keys alice"
  } >"$at/log" 2>&1
}

# start_kdc: a realm whose server listens on a port of 127.0.0.1 that nobody has
start_kdc() {
  local port
  for port in 38801 41823 44871; do
    make_realm "$port" || return 1
    krb5kdc -n >>"$dir/realm/log" 2>&1 &
    kdc=$!
    until_true has_answered "$kdc" && ! has_ended "$kdc" && return 0
  done
  return 1
}

# has_answered PID: alice gets a ticket; or the server has ended
has_answered() { has_ended "$1" || KRB5CCNAME=FILE:$dir/realm/first kinit -k -t "$dir/realm/keys" alice 2>/dev/null; }

# in_realm WORD ..: what commands of a shell print in a new session, whose tickets it keeps
in_realm() { KRB5CCNAME=KEYRING:session:main in_session "${@:2}" -- sh -c "$1" 2>&1 | paste -sd' '; }

try_kerberos() {
  local kdc word all=() ticket
  PATH=$PATH:/usr/sbin
  for word in krb5kdc kdb5_util kadmin.local kinit klist kdestroy; do
    command -v "$word" >/dev/null || { skipped "Kerberos: no $word"; return; }
  done
  start_kdc || { head -n 20 "$dir/realm/log" && is 'Kerberos: a server' started 'not started'; return; }
  serve
  ticket="kinit -k -t $dir/realm/keys alice && klist | sed -n 's/^Default principal: //p'"
  in_session --syscalls -- true 2>/dev/null && all=(--syscalls)
  [ "${#all[@]}" = 1 ] || skipped 'Kerberos by system calls: they are not answered here'
  for word in '' "${all[@]}"; do
    is "Kerberos $word: a ticket" "alice@$realm" "$(in_realm "$ticket" $word)"
    is "Kerberos $word: who joins the session" has \
      "$(in_realm "$ticket >/dev/null; $dir/c/keyretain-session $word work -- klist -s && echo has" $word work)"
    is "Kerberos $word: a session without" none "$(in_realm 'klist -s || echo none' $word)"
    is "Kerberos $word: kdestroy" gone "$(in_realm "$ticket >/dev/null; kdestroy; klist -s || echo gone" $word)"
  done
  kill "$kdc" && wait "$kdc" 2>/dev/null
  unset KRB5_CONFIG KRB5_KDC_PROFILE
  kill_daemon TERM
}
