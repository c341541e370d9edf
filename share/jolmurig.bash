# The completion of jolmurig's arguments, for bash. docs/compare_manual compares it with the program's help.
# shellcheck shell=bash

# Completes the last word by these words.
_jolmurig_words() {
    mapfile -t COMPREPLY < <(compgen -W "$1" -- "${COMP_WORDS[COMP_CWORD]}")
}

# Completes the last word by the names of files.
_jolmurig_files() {
    compopt -o filenames
    mapfile -t COMPREPLY < <(compgen -f -- "${COMP_WORDS[COMP_CWORD]}")
}

_jolmurig_types() {
    _jolmurig_words "
        Ticket Authenticator EncTicketPart AS-REQ AS-REP TGS-REQ TGS-REP AP-REQ AP-REP
        KRB-PRIV KRB-CRED EncASRepPart EncTGSRepPart EncAPRepPart EncKrbPrivPart
        EncKrbCredPart KRB-ERROR token PAC NEGOEX password-frame keytab ccache
        PrincipalName HostAddress HostAddresses AuthorizationData EncryptedData
        EncryptionKey Checksum TransitedEncoding LastReq KDC-REQ-BODY KrbCredInfo PA-DATA
        METHOD-DATA PA-ENC-TS-ENC ETYPE-INFO2-ENTRY ETYPE-INFO2 KERB-PA-PAC-REQUEST
        PA-PAC-OPTIONS KERB-ERROR-DATA KERB-AD-RESTRICTION-ENTRY ChangePasswdData TGT-REQ
        TGT-REP KDC-PROXY-MESSAGE PKU2U-NEGO-REQ-METADATA PKU2U-NEGO-BODY PKU2U-NEGO-REQ
        PKU2U-NEGO-REP KRB-FINISHED PA-PK-AS-REQ PA-PK-AS-REP DHAuthPack ECAuthPack
        PKAuthenticator ExternalPrincipalIdentifier DHRepInfo KDCDHKeyInfo
        AlgorithmIdentifier SubjectPublicKeyInfo DHSubjectPublicKeyInfo DomainParameters
        ValidationParms TSCredentials TSPasswordCreds TSSmartCardCreds TSCspDataDetail
        TSRemoteGuardCreds TSRemoteGuardPackageCred
    "
}

_jolmurig_option_or_file() {
    case ${COMP_WORDS[COMP_CWORD]} in
        -*) _jolmurig_words "$1 --help" ;;
        *) _jolmurig_files ;;
    esac
}

_jolmurig_arguments() {
    case ${COMP_WORDS[1]} in
        show)
            _jolmurig_option_or_file "--as --tree --json --type --places --key --key-file --keytab --password-file
                --all-found-keys --show-keys --no-keys"
            ;;
        accept)
            _jolmurig_option_or_file "--keytab --time --skew --server --realm --bindings --pac --bare --other-checksum"
            ;;
        check) _jolmurig_option_or_file "--as" ;;
        list | convert | proxy) _jolmurig_option_or_file "" ;;
    esac
}

_jolmurig() {
    COMPREPLY=()
    case $COMP_CWORD/${COMP_WORDS[1]}/${COMP_WORDS[COMP_CWORD - 1]} in
        1/*) _jolmurig_words "show check list convert proxy accept --help --version" ;;
        */--as) _jolmurig_types ;;
        */--key | */--time | */--skew | */--server | */--realm | */--bindings) ;;
        */--pac) _jolmurig_words "required ignored" ;;
        */--key-file | */--keytab | */--password-file) _jolmurig_files ;;
        2/convert/*) _jolmurig_words "kirbi ccache --help" ;;
        2/proxy/*) _jolmurig_words "request reply --help" ;;
        *) _jolmurig_arguments ;;
    esac
}

complete -F _jolmurig jolmurig
