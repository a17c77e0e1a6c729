#!/usr/bin/env bash
# Asks a running server each function of its API by curl, and compares the replies.
#
#     tools/api.sh ADDR KEY
#
# ADDR is where the server answers the API, as 127.0.0.1:9002, and KEY is its key. Each other reply is printed, and the exit
# status is 1 where there is one. What can be deleted again is deleted at the end; authors and what mappers lead to stay.
# Where curl isn't there nothing is asked.

if ! command -v curl >/dev/null; then
    echo "skipped: no curl"
    exit 0
fi
if [ $# -ne 2 ]; then
    echo "usage: tools/api.sh ADDR KEY" >&2
    exit 2
fi
addr=$1
key=$2
mine=api-$(date +%s)-$$
until=$(($(date +%s) + 3600))
asked=0
others=0

# The status and body of a request: METHOD (get or post), VERSION, FUNCTION, and pairs NAME=VALUE.
request() {
    local how=$1 version=$2 pair words=()
    what=$3
    shift 3
    [ "$how" = get ] && words+=(--get)
    for pair in "$@"; do
        words+=(--data-urlencode "$pair")
    done
    reply=$(curl --silent --show-error --max-time 10 --write-out ' %{http_code}' "${words[@]}" "http://$addr/api/$version/$what")
    asked=$((asked + 1))
}

other() {
    others=$((others + 1))
    echo "$what: wanted $1, given $reply"
}

# The last reply has these data.
is() {
    [ "$reply" = "{\"code\":0,\"data\":$1,\"message\":\"ok\"} 200" ] || other "$1"
}

# The last reply refuses, with a code and a message.
refuses() {
    [ "$reply" = "{\"code\":$1,\"data\":null,\"message\":\"$2\"} 200" ] || other "$1 $2"
}

# The last reply's one datum matches a pattern; its first group is $got.
has() {
    if [[ $reply =~ ^'{"code":0,"data":{"'$1'":'$2'},"message":"ok"} 200'$ ]]; then
        got=${BASH_REMATCH[1]}
    else
        got=
        other "$1 as $2"
    fi
}

# A request with the key, by either method and each version in turn.
ask() {
    local how=get version=1.2
    [ $((asked % 2)) -eq 0 ] && how=post
    [ $((asked % 3)) -eq 0 ] && version=1
    [ $((asked % 3)) -eq 1 ] && version=1.1
    local name=$1
    shift
    request $how $version "$name" "apikey=$key" "$@"
}

id='[a-z0-9]{16}'

ask checkToken; is null
request get 1.2 checkToken "apikey=${key}x"; refuses 4 "no or wrong API Key"
request get 1.2 checkToken; refuses 4 "no or wrong API Key"
ask noFunction; refuses 3 "no such function"
request get 2 checkToken "apikey=$key"; refuses 3 "no such api version"

ask createGroup; has groupID "\"(g\\.$id)\""; group=$got
ask createGroupIfNotExistsFor "groupMapper=$mine"; has groupID "\"(g\\.$id)\""; mapped=$got
ask createGroupIfNotExistsFor "groupMapper=$mine"; is "{\"groupID\":\"$mapped\"}"
ask createGroupIfNotExistsFor; refuses 1 "groupMapper is missing"
ask listAllGroups; has groupIDs "\\[.*\"($group)\".*\\]"
ask listPads "groupID=$group"; is '{"padIDs":[]}'

ask createAuthor "name=Ann & Bo"; has authorID "\"(a\\.$id)\""; author=$got
ask getAuthorName "authorID=$author"; is '{"authorName":"Ann & Bo"}'
ask createAuthorIfNotExistsFor "authorMapper=$mine" "name=Cy"; has authorID "\"(a\\.$id)\""; other_author=$got
ask createAuthorIfNotExistsFor "authorMapper=$mine"; is "{\"authorID\":\"$other_author\"}"
ask getAuthorName "authorID=$other_author"; is '{"authorName":"Cy"}'

ask createSession "groupID=$group" "authorID=$author" "validUntil=$until"; has sessionID "\"(s\\.$id)\""; session=$got
info="{\"authorID\":\"$author\",\"groupID\":\"$group\",\"validUntil\":$until}"
ask createSession "groupID=$group" "authorID=$author" "validUntil=1"; refuses 1 "validUntil is in the past"
ask createSession "groupID=$group" "authorID=$author" "validUntil=x"; refuses 1 "validUntil is not a number"
ask getSessionInfo "sessionID=$session"; is "$info"
ask listSessionsOfGroup "groupID=$group"; is "{\"$session\":$info}"
ask listSessionsOfAuthor "authorID=$author"; is "{\"$session\":$info}"
ask deleteSession "sessionID=$session"; is null
ask getSessionInfo "sessionID=$session"; refuses 1 "sessionID does not exist"

ask createGroupPad "groupID=$group" "padName=notes" "text=of the group"; is "{\"padID\":\"$group\$notes\"}"
pad=$group\$notes
ask createGroupPad "groupID=$group" "padName=notes"; refuses 1 "padName does already exist"
ask listPads "groupID=$group"; is "{\"padIDs\":[\"$pad\"]}"
ask getPublicStatus "padID=$pad"; is '{"publicStatus":false}'
ask setPublicStatus "padID=$pad" "publicStatus=true"; is null
ask getPublicStatus "padID=$pad"; is '{"publicStatus":true}'
ask setPublicStatus "padID=$pad" "publicStatus=yes"; refuses 1 "publicStatus is not a boolean"
ask createPad "padID=$group\$more"; refuses 1 "createPad can't create group pads"

ask createPad "padID=$mine" "text=one & two"; is null
ask createPad "padID=$mine"; refuses 1 "padID does already exist"
ask getText "padID=$mine"; is '{"text":"one & two\n"}'
ask setText "padID=$mine" "text=três"; is null
ask setText "padID=$mine"; refuses 1 "text is missing"
ask getText "padID=$mine"; is '{"text":"três\n"}'
ask getText "padID=$mine" "rev=0"; is '{"text":"one & two\n"}'
ask getText "padID=$mine" "rev=2"; refuses 1 "rev is higher than the head revision of the pad"
ask getRevisionsCount "padID=$mine"; is '{"revisions":1}'
ask getLastEdited "padID=$mine"; has lastEdited '([0-9]+)'
ask padUsersCount "padID=$mine"; is '{"padUsersCount":0}'
ask getReadOnlyID "padID=$mine"; has readOnlyID "\"(r\\.$id)\""; reading=$got
ask getReadOnlyID "padID=$mine"; is "{\"readOnlyID\":\"$reading\"}"
ask setPublicStatus "padID=$mine" "publicStatus=true"; refuses 1 "padID is not a group pad"

ask deletePad "padID=$mine"; is null
ask getText "padID=$mine"; refuses 1 "padID does not exist"
ask deleteGroup "groupID=$group"; is null
ask getText "padID=$pad"; refuses 1 "padID does not exist"
ask listPads "groupID=$group"; refuses 1 "groupID does not exist"
ask deleteGroup "groupID=$mapped"; is null

echo "$asked requests, $others other replies"
[ "$others" -eq 0 ]
