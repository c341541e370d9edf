# The completion of krb's arguments, for bash: made of python/krb/_arguments.py by docs/krb_command --write.
# shellcheck shell=bash

# Completes the last word by these words.
_krb_words() {
    mapfile -t COMPREPLY < <(compgen -W "$1" -- "${COMP_WORDS[COMP_CWORD]}")
}

# Completes the last word by the names of files.
_krb_files() {
    compopt -o filenames 2>/dev/null
    mapfile -t COMPREPLY < <(compgen -f -- "${COMP_WORDS[COMP_CWORD]}")
}

_krb_nothing() {
    :
}

# Completes an option, or another word in this way.
_krb_or() {
    case ${COMP_WORDS[COMP_CWORD]} in
        -*) _krb_words "$2" ;;
        *) "_krb_$1" ;;
    esac
}

# The kinds of octets, in letters of either case.
_krb_kinds() {
    local each word="${COMP_WORDS[COMP_CWORD]}"
    for each in \
        Ticket Authenticator EncTicketPart AS-REQ AS-REP TGS-REQ TGS-REP AP-REQ AP-REP \
        KRB-PRIV KRB-CRED EncASRepPart EncTGSRepPart EncAPRepPart EncKrbPrivPart \
        EncKrbCredPart KRB-ERROR token PAC NEGOEX password-frame keytab ccache tree \
        PrincipalName HostAddress HostAddresses AuthorizationData EncryptedData EncryptionKey \
        Checksum TransitedEncoding LastReq KDC-REQ-BODY KrbCredInfo PA-DATA METHOD-DATA \
        PA-ENC-TS-ENC ETYPE-INFO2-ENTRY ETYPE-INFO2 KERB-PA-PAC-REQUEST PA-PAC-OPTIONS \
        KERB-ERROR-DATA KERB-AD-RESTRICTION-ENTRY ChangePasswdData TGT-REQ TGT-REP \
        KDC-PROXY-MESSAGE PKU2U-NEGO-REQ-METADATA PKU2U-NEGO-BODY PKU2U-NEGO-REQ \
        PKU2U-NEGO-REP KRB-FINISHED PA-PK-AS-REQ PA-PK-AS-REP DHAuthPack ECAuthPack \
        PKAuthenticator ExternalPrincipalIdentifier DHRepInfo KDCDHKeyInfo AlgorithmIdentifier \
        SubjectPublicKeyInfo DHSubjectPublicKeyInfo DomainParameters ValidationParms \
        TSCredentials TSPasswordCreds TSSmartCardCreds TSCspDataDetail TSRemoteGuardCreds \
        TSRemoteGuardPackageCred; do
        [[ "${each,,}" != "${word,,}"* ]] || COMPREPLY+=("$each")
    done
}

_krb_arguments() {
    case $1 in
        show)
            _krb_or files "
                --as --help --json --key-file --keytab --places --show-keys -h
            "
            ;;
        accept)
            _krb_or files "
                --bare --help --keytab --other-checksum --pac --realm --server --skew --time -h
            "
            ;;
        list)
            _krb_or files "
                --help --json -h -k
            "
            ;;
        capture)
            _krb_or files "
                --error --help --json --keytab --name --realm --seconds --show --show-keys -h
            "
            ;;
        web)
            _krb_or files "
                --help --port -h
            "
            ;;
        kinit)
            _krb_or nothing "
                --config --dns --help --kdc --password-file --timeout --trace -C -R -S -c -f -h
                -k -l -p -r -s -t -v
            "
            ;;
        klist)
            _krb_or nothing "
                --help -c -e -f -h -k -s -t
            "
            ;;
        kvno)
            _krb_or nothing "
                --config --dns --help --kdc --realm --timeout --trace -c -h
            "
            ;;
        kpasswd)
            _krb_or nothing "
                --config --dns --help --kdc --password-file --server --timeout --trace -h
            "
            ;;
        kdestroy)
            _krb_or nothing "
                --help -c -h
            "
            ;;
    esac
}

_krb() {
    COMPREPLY=()
    if [ "$COMP_CWORD" = 1 ]; then
        _krb_words "show accept list capture web kinit klist kvno kpasswd kdestroy --help --version"
        return
    fi
    case ${COMP_WORDS[1]}/${COMP_WORDS[COMP_CWORD - 1]} in
        show/--as) _krb_kinds ;;
        show/--keytab) _krb_files;;
        show/--key-file) _krb_files;;
        accept/--keytab) _krb_files;;
        accept/--server) ;;
        accept/--realm) ;;
        accept/--time) ;;
        accept/--skew) ;;
        accept/--pac) _krb_words "required ignored" ;;
        capture/--keytab) _krb_files;;
        capture/--realm) ;;
        capture/--name) ;;
        capture/--error) ;;
        capture/--seconds) ;;
        web/--port) ;;
        kinit/-c) _krb_files;;
        kinit/-t) _krb_files;;
        kinit/-l) ;;
        kinit/-r) ;;
        kinit/-s) ;;
        kinit/-S) ;;
        kinit/--password-file) _krb_files;;
        kinit/--kdc) ;;
        kinit/--config) _krb_files;;
        kinit/--timeout) ;;
        klist/-c) _krb_files;;
        klist/-t) _krb_files;;
        kvno/-c) _krb_files;;
        kvno/--kdc) ;;
        kvno/--config) _krb_files;;
        kvno/--timeout) ;;
        kvno/--realm) ;;
        kpasswd/--server) ;;
        kpasswd/--password-file) _krb_files;;
        kpasswd/--kdc) ;;
        kpasswd/--config) _krb_files;;
        kpasswd/--timeout) ;;
        kdestroy/-c) _krb_files;;
        *) _krb_arguments "${COMP_WORDS[1]}" ;;
    esac
}

complete -F _krb krb
