# Read by `source`, at the top of the repository.

# Sets `version` to that of a package: ccell's own number, then when the commit was made, in UTC, and the first digits of its hash. So a
# later commit's package replaces it. `.changed` stands behind that if files differ from the commit's. Sets `date` to the seconds that
# files have: the commit's, or SOURCE_DATE_EPOCH.
version_of() {
    local made
    made=$(git log -1 --format=%ct)
    version=$1+$(date -u -d "@$made" +%Y%m%d%H%M).$(git rev-parse HEAD | cut -c 1-7)
    git diff --quiet HEAD || version=$version.changed
    date=${SOURCE_DATE_EPOCH:-$made}
}
