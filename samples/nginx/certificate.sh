#!/bin/sh
# Makes a self-signed certificate and its key, for trying: FOLDER/hub.crt and FOLDER/hub.key, for NAME and localhost, good
# for thirty days. Browsers warn of it; for passengers take one of an authority. Needs openssl.
#
# usage: certificate.sh FOLDER [NAME]
set -eu
folder=$1
name=${2:-departures.example.org}
umask 077
openssl req -x509 -newkey ec -pkeyopt ec_paramgen_curve:prime256v1 -nodes -days 30 -subj "/CN=$name" \
  -addext "subjectAltName=DNS:$name,DNS:localhost,IP:127.0.0.1" -keyout "$folder/hub.key" -out "$folder/hub.crt" 2> "$folder/openssl.log" \
  || { cat "$folder/openssl.log" >&2; exit 1; }
rm "$folder/openssl.log"
