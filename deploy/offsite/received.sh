# What the commands of the receiving machine share. They read it; it is not run.
# FOLDER (/var/lib/pawnd-received) has the repository `copies`, and belongs to the user of ssh. PASSPHRASE names the file
# with the passphrase.
folder=${FOLDER:-/var/lib/pawnd-received}
repository=$folder/copies
user=$(stat -c %U "$folder")
BORG_PASSPHRASE=$(cat "${PASSPHRASE:-/etc/pawnd/offsite.passphrase}")
export BORG_PASSPHRASE BORG_BASE_DIR="$folder/borg" BORG_RELOCATED_REPO_ACCESS_IS_OK=yes

# borg, by the owner of the repository: a file that root makes there would keep the sending machine out.
by_owner() {
    runuser -u "$user" -- borg "$@"
}
