#compdef krb
# The completion of krb's arguments, for zsh: made of python/krb/_arguments.py by docs/krb_command --write.

# The kinds of octets, in letters of either case.
_krb_kinds() {
    compadd "$@" -M 'm:{a-zA-Z}={A-Za-z}' - \
        Ticket Authenticator EncTicketPart AS-REQ AS-REP TGS-REQ TGS-REP AP-REQ AP-REP \
        KRB-PRIV KRB-CRED EncASRepPart EncTGSRepPart EncAPRepPart EncKrbPrivPart \
        EncKrbCredPart KRB-ERROR token PAC NEGOEX password-frame keytab ccache tree \
        PrincipalName HostAddress HostAddresses AuthorizationData EncryptedData EncryptionKey \
        Checksum TransitedEncoding LastReq KDC-REQ-BODY KrbCredInfo PA-DATA METHOD-DATA \
        PA-ENC-TS-ENC ETYPE-INFO2-ENTRY ETYPE-INFO2 KERB-PA-PAC-REQUEST PA-PAC-OPTIONS \
        KERB-ERROR-DATA KERB-AD-RESTRICTION-ENTRY ChangePasswdData TGT-REQ TGT-REP \
        KDC-PROXY-MESSAGE PKU2U-NEGO-REQ-METADATA PKU2U-NEGO-BODY PKU2U-NEGO-REQ \
        PKU2U-NEGO-REP KRB-FINISHED PA-PK-AS-REQ PA-PK-AS-REP DHAuthPack ECAuthPack \
        PKAuthenticator ExternalPrincipalIdentifier DHRepInfo KDCDHKeyInfo AlgorithmIdentifier \
        SubjectPublicKeyInfo DHSubjectPublicKeyInfo DomainParameters ValidationParms \
        TSCredentials TSPasswordCreds TSSmartCardCreds TSCspDataDetail TSRemoteGuardCreds \
        TSRemoteGuardPackageCred
}

_krb() {
    local -a commands
    commands=(
        'show:what octets hold\: of messages, tokens, PACs, keytabs, caches'
        'accept:whether a service lets in the client of a token, and else why not'
        'list:the entries of a keytab, a credential cache or a .kirbi, a line each'
        'capture:the messages in a capture of a network, a line each'
        'web:a page on 127.0.0.1 that shows octets in the browser'
        'kinit:get a first ticket, by a password or a keytab'
        'klist:list the tickets of a file, or the keys of a keytab (-k)'
        'kvno:get tickets for services, and tell the versions of their keys'
        'kpasswd:change a password'
        'kdestroy:remove the file of tickets'
    )
    if (( CURRENT == 2 )); then
        _describe command commands
        _arguments '--help[tell the commands]' '--version[tell the version]'
        return
    fi
    shift words
    (( CURRENT-- ))
    case $words[1] in
        show)
            _arguments -S \
                '(-h --help)-h[tell all arguments]' \
                '(-h --help)--help[tell all arguments]' \
                '(--as)--as[as this type or format, as AS-REQ, token, PAC, keytab; else as the octets begin]:KIND:_krb_kinds' \
                '(--json)--json[a line of JSON]' \
                '(--places)--places[with the place of each value]' \
                '*--keytab[open what is encrypted with its keys; may be given more than once]:FILE:_files' \
                '*--key-file[the same with the keys ETYPE\:HEX of this file]:FILE:_files' \
                '(--show-keys)--show-keys[the octets of keys and passwords, and not the word hidden]' \
                '1:FILE:_files'
            ;;
        accept)
            _arguments -S \
                '(-h --help)-h[tell all arguments]' \
                '(-h --help)--help[tell all arguments]' \
                '(--keytab)--keytab[the service'\''s keytab; else $KRB5_KTNAME or /etc/krb5.keytab]:FILE:_files' \
                '*--server[for this server alone, as HTTP/www.home.test; may be given more than once]:NAME: ' \
                '*--realm[clients of this realm alone; may be given more than once]:REALM: ' \
                '(--time)--time[when the token came\: seconds since 1970, or as 2026-01-02T03\:04\:05Z; else now]:T: ' \
                '(--skew)--skew[by how many seconds clocks may differ (300)]:S: ' \
                '(--bare)--bare[an AP-REQ with no frame around it too]' \
                '(--other-checksum)--other-checksum[an authenticator with another checksum than that of the GSS-API too]' \
                '(--pac)--pac[else a PAC is checked where there is one]:value:(required ignored)' \
                '1:FILE:_files'
            ;;
        list)
            _arguments -S \
                '(-h --help)-h[tell all arguments]' \
                '(-h --help)--help[tell all arguments]' \
                '(-k)-k[without FILE\: the keytab of $KRB5_KTNAME, or /etc/krb5.keytab]' \
                '(--json)--json[a line of JSON for each entry]' \
                '1:FILE:_files'
            ;;
        capture)
            _arguments -S \
                '(-h --help)-h[tell all arguments]' \
                '(-h --help)--help[tell all arguments]' \
                '1:FILE:_files' \
                '*--keytab[keys that open what is encrypted; may stand more than once]:KEYTAB:_files' \
                '*--realm[messages that name this realm alone; may stand more than once]:REALM: ' \
                '*--name[messages that name this principal or component alone, as ann or HTTP/www.home.test]:NAME: ' \
                '*--error[errors alone of this code or name, as 25 or KDC_ERR_PREAUTH_REQUIRED; any\: all]:ERROR: ' \
                '(--json)--json[a line of JSON for each message]' \
                '(--show)--show[the whole of each message, opened where a key fits]' \
                '(--show-keys)--show-keys[with --show\: the octets of keys and passwords, too]' \
                '(--seconds)--seconds[stop after so many seconds (300 of a file, never of a pipe); 0\: never]:N: '
            ;;
        web)
            _arguments -S \
                '(-h --help)-h[tell all arguments]' \
                '(-h --help)--help[tell all arguments]' \
                '(--port)--port[the port, 1 to 65535; without it one that is free]:N: ' \
                '1:FILE:_files'
            ;;
        kinit)
            _arguments -S \
                '(-h --help)-h[tell all arguments]' \
                '(-h --help)--help[tell all arguments]' \
                '(-c)-c[the file of tickets; else $KRB5CCNAME or /tmp/krb5cc_UID]:CACHE:_files' \
                '(-k)-k[by the keytab, and no password]' \
                '(-t)-t[the keytab; else $KRB5_KTNAME or /etc/krb5.keytab]:KEYTAB:_files' \
                '(-l)-l[as 10h, 1d or 3h30m; else as long as the KDC allows]:LIFETIME: ' \
                '(-r)-r[how long it may be renewed]:LIFETIME: ' \
                '(-s)-s[from when on it is to be valid\: a postdated ticket]:DURATION: ' \
                '(-f)-f[a forwardable ticket]' \
                '(-p)-p[a proxiable ticket]' \
                '(-C)-C[the KDC may answer with another name of the client (RFC 6806)]' \
                '(-S)-S[for another service than the ticket-granting one]:SERVICE: ' \
                '(-R)-R[renew the ticket of the file]' \
                '(-v)-v[validate the postdated ticket of the file]' \
                '(--password-file)--password-file[its first line is the password; - is standard input]:FILE:_files' \
                '*--kdc[HOST\[\:PORT\], with tcp/ or udp/ before it over this alone, or https\://HOST\[\:PORT\]/PATH of a KDC proxy; may be given more than once]:KDC: ' \
                '(--config)--config[krb5.conf; else $KRB5_CONFIG or /etc/krb5.conf]:FILE:_files' \
                '(--dns)--dns[ask DNS for the KDCs of a realm of which the file has none]' \
                '(--timeout)--timeout[how long one KDC has for a reply (10)]:SECONDS: ' \
                '(--trace)--trace[say on standard error what is sent where and what comes; $KRB5_TRACE names a file for that]' \
                '1:PRINCIPAL: '
            ;;
        klist)
            _arguments -S \
                '(-h --help)-h[tell all arguments]' \
                '(-h --help)--help[tell all arguments]' \
                '(-c)-c[the file of tickets; else $KRB5CCNAME or /tmp/krb5cc_UID]:CACHE:_files' \
                '(-k)-k[the keys of a keytab in place of the tickets of a file]' \
                '(-t)-t[that keytab; else $KRB5_KTNAME or /etc/krb5.keytab]:KEYTAB:_files' \
                '(-e)-e[with encryption types]' \
                '(-f)-f[with flags]' \
                '(-s)-s[write nothing; the status is 0 where there is a ticket-granting ticket that has not ended]'
            ;;
        kvno)
            _arguments -S \
                '(-h --help)-h[tell all arguments]' \
                '(-h --help)--help[tell all arguments]' \
                '(-c)-c[the file of tickets; else $KRB5CCNAME or /tmp/krb5cc_UID]:CACHE:_files' \
                '*--kdc[HOST\[\:PORT\], with tcp/ or udp/ before it over this alone, or https\://HOST\[\:PORT\]/PATH of a KDC proxy; may be given more than once]:KDC: ' \
                '(--config)--config[krb5.conf; else $KRB5_CONFIG or /etc/krb5.conf]:FILE:_files' \
                '(--dns)--dns[ask DNS for the KDCs of a realm of which the file has none]' \
                '(--timeout)--timeout[how long one KDC has for a reply (10)]:SECONDS: ' \
                '(--trace)--trace[say on standard error what is sent where and what comes; $KRB5_TRACE names a file for that]' \
                '*--realm[another realm to which a KDC may refer; may be given more than once]:REALM: ' \
                '*:SERVICE: '
            ;;
        kpasswd)
            _arguments -S \
                '(-h --help)-h[tell all arguments]' \
                '(-h --help)--help[tell all arguments]' \
                '*--server[the server that changes passwords, as --kdc; else kpasswd_server of krb5.conf, or the hosts of its KDCs]:SERVER: ' \
                '(--password-file)--password-file[its first two lines are the old and the new password; - is standard input]:FILE:_files' \
                '*--kdc[HOST\[\:PORT\], with tcp/ or udp/ before it over this alone, or https\://HOST\[\:PORT\]/PATH of a KDC proxy; may be given more than once]:KDC: ' \
                '(--config)--config[krb5.conf; else $KRB5_CONFIG or /etc/krb5.conf]:FILE:_files' \
                '(--dns)--dns[ask DNS for the KDCs of a realm of which the file has none]' \
                '(--timeout)--timeout[how long one KDC has for a reply (10)]:SECONDS: ' \
                '(--trace)--trace[say on standard error what is sent where and what comes; $KRB5_TRACE names a file for that]' \
                '1:PRINCIPAL: '
            ;;
        kdestroy)
            _arguments -S \
                '(-h --help)-h[tell all arguments]' \
                '(-h --help)--help[tell all arguments]' \
                '(-c)-c[the file of tickets; else $KRB5CCNAME or /tmp/krb5cc_UID]:CACHE:_files'
            ;;
    esac
}

_krb "$@"
